// Nothing is printed: one order finishes, another one deadlocks.
// Bug: deadlock
package main

func main() {
	c := make(chan int)
	d := make(chan int, 1)
	go wait(c, d)
	select {
	case c <- 1:
	default:
	}
	<-d
}

func wait(c, d chan int) {
	d <- <-c
}
