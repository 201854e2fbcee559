// A worker waits for good when main returns.
// With leaks it fails in each order.
package main

func main() {
	jobs := make(chan int)
	go work(jobs)
	jobs <- 1
	println("done")
}

func work(jobs chan int) {
	for {
		<-jobs
	}
}

// Output: done
