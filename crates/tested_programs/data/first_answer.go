package main
// passes, and fails in other orders by a deadlock

func main() {
	answers := make(chan int)
	go answer(1, answers)
	go answer(2, answers)
	first := <-answers
	println(first)
	if first == 2 {
		<-answers
		<-answers
	}
}

func answer(n int, answers chan int) {
	answers <- n
}

// Output: 1
