package main

func main() {
	a, b := make(chan int, 1), make(chan int, 1)
	a <- 100
	b <- 100
	done := make(chan bool)
	go transfer(a, b, 30, done)
	refund := 30 / 10
	go transfer(b, a, refund, done)
	<-done
	<-done
	println("total", <-a+<-b)
}

// Moves an amount between two accounts. To receive a balance is to lock it.
func transfer(from, to chan int, amount int, done chan bool) {
	balance := <-from
	to <- <-to + amount
	from <- balance - amount
	done <- true
}
