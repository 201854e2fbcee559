// It deadlocks in each order.
// Bug: deadlock
package main

func main() {
	c := make(chan int)
	c <- 1
}
