// One order finishes; another one deadlocks, after what depends on the order.
// Bug: deadlock
package main

func main() {
	c := make(chan int, 1)
	d := make(chan int, 1)
	go put(c, d)
	select {
	case v := <-c:
		println("c", v)
		<-c
	case v := <-d:
		println("d", v)
	}
}

func put(c, d chan int) {
	select {
	case c <- 1:
	case c <- 2:
	case d <- 3:
	}
}
