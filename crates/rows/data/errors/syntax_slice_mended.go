package main

func main() {
	queue := make(chan int, 2)
	queue <- 1
	queue <- 2
	first := <-queue
	println(first)
}
