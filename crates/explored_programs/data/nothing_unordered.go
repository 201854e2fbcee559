// Nothing is printed in any order.
// Bug: none
package main

func main() {
	c := make(chan int)
	go f(c)
	<-c
}

func f(c chan int) {
	c <- 1
}

