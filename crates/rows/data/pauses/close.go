package main

func main() {
	data := make(chan int, 2)
	ready := make(chan bool, 2)
	go produce(1, data, ready)
	go produce(2, data, ready)
	<-ready
	<-ready
	close(data)
	sum := 0
	for x := range data {
		sum += x
	}
	println("sum", sum)
}

func produce(n int, data chan int, ready chan bool) {
	ready <- true
	data <- n
}
