// The ordinary run reaches the limit of logical time; another order ends before.
// Bug: not all orders
package main

func main() {
	c := make(chan int, 2)
	go put(c, 1000, 0)
	go put(c, 1, 3)
	n := <-c
	for i := 0; i < n; i++ {
	}
	println(n > 0)
}

func put(c chan int, n int, wait int) {
	for i := 0; i < wait; i++ {
	}
	c <- n
}
