// What is printed before a panic depends on the order.
// Bug: panic P3
package main

func main() {
	c := make(chan int)
	go f(c, 1)
	go f(c, 2)
	println(<-c)
	println(<-c)
	close(c)
	close(c)
}

func f(c chan int, n int) {
	c <- n
}

