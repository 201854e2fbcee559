// It deadlocks in each order, after one line or another.
// Bug: deadlock
package main

func main() {
	c := make(chan int, 1)
	go f(c)
	for i := 0; i < 5; i++ {
	}
	println(<-c)
	<-c
}

func f(c chan int) {
	select {
	case c <- 1:
	case c <- 2:
	}
}
