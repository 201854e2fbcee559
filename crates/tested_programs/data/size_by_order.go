// The size of a channel depends on the order.
// In another order it is negative.
package main

func main() {
	c := make(chan int, 2)
	go send(c, 1)
	go send(c, -1)
	n := <-c
	d := make(chan bool, n)
	println(cap(d))
}

func send(c chan int, n int) {
	c <- n
}

// Output: 1
