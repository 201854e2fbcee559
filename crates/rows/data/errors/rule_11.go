package main

func main() {
	jobs := make(chan int, 1)
	work(jobs)
	println(1)
}

func work(jobs <-chan int) {
	jobs <- 1
}
