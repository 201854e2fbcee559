package main

type request struct {
	n      int
	answer chan int
}

func main() {
	requests := make(chan request)
	unused := make(chan int)
	go serve(requests, unused)
	go serve(requests, unused)
	go spin()
	answer := make(chan int)
	requests <- request{1, answer}
	println(<-answer)
	println("bye")
	println("bye")
}

func serve(requests <-chan request, unused chan<- int) {
	it := <-requests
	it.answer <- it.n + 1
	unused <- it.n
}

func spin() {
	for {
	}
}
