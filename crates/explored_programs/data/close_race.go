// A close meets a goroutine that waits to send, one that waits to receive, and a select on both.
// Bug: panic P2
package main

func main() {
	c := make(chan int)
	d := make(chan int)
	out := make(chan int, 3)
	go send(c)
	go both(c, d, out)
	close(d)
	v, ok := <-c
	println(v, ok)
	close(c)
	println(<-out)
}

func send(c chan int) {
	c <- 5
}

func both(c, d, out chan int) {
	select {
	case v, ok := <-d:
		if ok {
			out <- v
		} else {
			out <- 100
		}
	case c <- 9:
		out <- 200
	}
}
