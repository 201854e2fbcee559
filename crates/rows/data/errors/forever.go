package main

func main() {
	requests := make(chan int)
	answers := make(chan int)
	go serve(requests, answers)
	for i := 1; i <= 3; i++ {
		requests <- i
		sum := i + <-answers
		println(sum)
	}
	println("bye")
}

func serve(requests <-chan int, answers chan<- int) {
	for request := range requests {
		answers <- request * 10
	}
}
