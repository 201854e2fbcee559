package main

type order struct {
	number, parts int
}

func main() {
	orders := make(chan order)
	packed := make(chan int)
	go pack(orders, packed)
	go pack(orders, packed)
	for i := 1; i <= 4; i++ {
		orders <- order{i, 10 * i}
	}
	close(orders)
	println("parts:", <-packed+<-packed)
}

func pack(orders <-chan order, packed chan<- int) {
	sum := 0
	for it := range orders {
		sum += it.parts
	}
	packed <- sum
}
