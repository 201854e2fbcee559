package main

// Each worker sends once on done, and main receives once for each worker.
func main() {
	workers := 3
	results := make(chan int, workers)
	done := make(chan bool)
	for i := 1; i <= workers; i++ {
		go work(i, results, done)
	}
	for i := 0; i < workers; i++ {
		<-done
	}
	println(len(results), "results are ready")
}

func work(number int, results chan<- int, done chan<- bool) {
	results <- number * number
	done <- true
}
