// Two goroutines send, and main closes the channel twice.
// In another order it prints 2 first.
package main

func main() {
	c := make(chan int)
	go send(c, 1)
	go send(c, 2)
	println(<-c)
	println(<-c)
	close(c)
	close(c)
}

func send(c chan int, n int) {
	c <- n
}

// Output: 1
// 2
// Ends: panic P3
