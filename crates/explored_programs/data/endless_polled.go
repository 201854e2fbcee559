// A goroutine computes for long before it sends; main only looks whether it did.
// Bug: not all orders
package main

func main() {
	c := make(chan int, 1)
	go work(c)
	select {
	case v := <-c:
		println("got", v)
	default:
		println("nothing")
	}
}

func work(c chan int) {
	x := 0
	for i := 0; i < 3000000; i++ {
		x += i
	}
	c <- 7
}
