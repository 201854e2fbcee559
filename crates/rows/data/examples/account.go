package main

type order struct {
	amount int
	answer chan int
}

func main() {
	orders := make(chan order)
	done := make(chan bool)
	go keep(orders)
	go draw(orders, 80, 0, done)
	go draw(orders, 80, 9, done)
	<-done
	<-done
	println("rest", ask(orders, 0))
}

// Adds each amount to the balance, and answers with the balance.
func keep(orders chan order) {
	balance := 100
	for it := range orders {
		balance += it.amount
		it.answer <- balance
	}
}

func ask(orders chan order, amount int) int {
	answer := make(chan int)
	orders <- order{amount, answer}
	return <-answer
}

// Thinks for a while, and draws an amount if it is there.
func draw(orders chan order, amount, thoughts int, done chan bool) {
	for i := 0; i < thoughts; i++ {
	}
	if ask(orders, 0) >= amount {
		ask(orders, -amount)
	}
	done <- true
}
