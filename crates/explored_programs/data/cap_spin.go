// A goroutine asks for a capacity for ever, which nobody notices: it must not put off the others.
// Bug: output
package main

func main() {
	c := make(chan int, 3)
	go spin(c)
	go put(c, 1)
	go put(c, 2)
	println(<-c)
}

func spin(c chan int) {
	for cap(c) > 0 {
	}
}

func put(c chan int, n int) {
	c <- n
}
