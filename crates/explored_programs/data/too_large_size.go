// In one order a channel would be larger than kendo allows.
// Bug: not all orders
package main

func main() {
	sizes := make(chan int, 2)
	go send(sizes, 3)
	go send(sizes, 70000)
	n := <-sizes
	c := make(chan int, n)
	println(cap(c) > 0)
}

func send(sizes chan int, n int) {
	sizes <- n
}
