// Nothing is printed.

package main

func main() {
	c := make(chan int)
	go send(c)
	<-c
}

func send(c chan int) {
	c <- 1
}

// Unordered output:
