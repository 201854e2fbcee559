// Two goroutines look at the length of a buffer, for ever or until it is full.
// Bug: none
package main

func main() {
	c := make(chan int, 2)
	go look(c)
	go put(c, 1)
	go put(c, 2)
	for len(c) < 2 {
	}
	println(<-c + <-c)
}

func look(c chan int) {
	for len(c) >= 0 {
	}
}

func put(c chan int, n int) {
	c <- n
}
