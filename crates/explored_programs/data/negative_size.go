// In one order a channel gets a negative size, which is an error in Go, too.
// Bug: panic P6
package main

func main() {
	c := make(chan int, 2)
	go f(c, 1)
	go f(c, -1)
	n := <-c
	d := make(chan bool, n)
	println(cap(d))
}

func f(c chan int, n int) {
	c <- n
}

