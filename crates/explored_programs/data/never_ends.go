// A server that serves for ever: no order ends.
// Bug: none
package main

func main() {
	requests := make(chan int)
	replies := make(chan int)
	go serve(requests, replies)
	for {
		requests <- 1
		<-replies
	}
}

func serve(requests, replies chan int) {
	for {
		n := <-requests
		replies <- n + 1
	}
}
