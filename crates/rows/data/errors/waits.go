package main

func main() {
	orders := make(chan int)
	done := make(chan bool)
	go work(orders, done)
	orders <- 1
	orders <- 2
	<-done
}

func work(orders chan int, done chan bool) {
	for order := range orders {
		println(order)
	}
	done <- true
}
