package main

func main() {
	question := make(chan int)
	answer := make(chan int)
	go add(question, answer, 2)
	question <- 40
	println("the answer is", <-answer)
}

func add(question, answer chan int, more int) {
	answer <- <-question + more
}
