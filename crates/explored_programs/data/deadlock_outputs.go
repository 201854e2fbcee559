// What is printed before a deadlock depends on the order.
// Bug: deadlock
package main

func main() {
	c := make(chan int)
	go f(c, 1)
	go f(c, 2)
	println(<-c)
	println(<-c)
	<-c
}

func f(c chan int, n int) {
	c <- n
}

