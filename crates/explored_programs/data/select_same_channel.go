// Two selects with several clauses on one channel meet, in both directions.
// Bug: output
package main

func main() {
	c := make(chan int)
	d := make(chan int, 1)
	go f(c, d)
	select {
	case x := <-c:
		println("a", x)
	case x := <-c:
		println("b", x)
	case c <- 7:
		println("sent")
	}
	println(<-d)
}

func f(c, d chan int) {
	select {
	case c <- 1:
		d <- 10
	case c <- 2:
		d <- 20
	case x := <-c:
		d <- x
	}
}
