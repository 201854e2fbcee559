// A worker waits for good in each order.
// Bug: leak
package main

func main() {
	jobs := make(chan int)
	go work(jobs)
	jobs <- 1
	println("done")
}

func work(jobs chan int) {
	for {
		<-jobs
	}
}
