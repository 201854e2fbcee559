// Two goroutines send, and main receives once too often.
// In another order it prints 2 first.
package main

func main() {
	c := make(chan int)
	go send(c, 1)
	go send(c, 2)
	println(<-c)
	println(<-c)
	<-c
}

func send(c chan int, n int) {
	c <- n
}

// Output: 1
// 2
// Ends: deadlock
