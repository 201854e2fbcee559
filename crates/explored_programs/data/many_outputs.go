// More outputs than the report lists.
// Bug: output
package main

func main() {
	c := make(chan int, 6)
	for i := 1; i <= 5; i++ {
		go put(c, i)
	}
	println(<-c, <-c, <-c, <-c, <-c)
}

func put(c chan int, n int) {
	c <- n
}
