package main

func main() {
	orders := make(chan int, 2)
	done := make(chan bool)
	go work(orders, done)
	orders <- 1
	orders <- 2
	<-done
}

func work(orders chan int, done chan bool) {
	var other chan int
	for {
		select {
		case order := <-orders:
			println(order)
		case other <- 5:
			println("never")
		case done <- false:
			panics(0)
		}
	}
}

func panics(n int) {
	println(1 / n)
}
