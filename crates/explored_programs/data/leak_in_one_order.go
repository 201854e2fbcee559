// In one order a worker waits for good when main returns.
// Bug: leak
package main

func main() {
	jobs := make(chan int)
	stop := make(chan bool, 1)
	go work(jobs, stop)
	select {
	case jobs <- 1:
	case stop <- true:
	}
	println("done")
}

func work(jobs chan int, stop chan bool) {
	select {
	case <-jobs:
	case <-stop:
		<-jobs
	}
}
