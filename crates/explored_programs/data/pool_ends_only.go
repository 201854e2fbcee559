package main

func main() {
	jobs := make(chan int)
	results := make(chan int, 4)
	done := make(chan bool)
	go work(jobs, results, done)
	go work(jobs, results, done)
	jobs <- 2
	jobs <- 4
	jobs <- 1
	jobs <- 3
	close(jobs)
	<-done
	<-done
	sum := 0
	for i := 0; i < 4; i++ {
		n := <-results
		sum += n
	}
	println("sum", sum)
}

func work(jobs, results chan int, done chan bool) {
	warm := false
	for n := range jobs {
		results <- n
		if !warm && n%2 == 1 {
			return
		}
		warm = true
	}
	done <- true
}


