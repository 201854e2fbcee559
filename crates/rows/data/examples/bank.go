package main

// A request to an account. It adds the amount unless the balance gets negative, and sends the balance after that.
type order struct {
	amount int
	answer chan<- balance
}

type balance struct {
	amount int
	done   bool
}

// An account is a goroutine that keeps its balance to itself. Three clerks move money between three accounts at the same
// time. Nothing gets lost, whatever the order. Each account has enough from the start, so no move is refused.
func main() {
	alice := open(100)
	bob := open(50)
	carol := open(70)
	done := make(chan bool)
	go clerk(alice, bob, 5, done)
	go clerk(bob, carol, 3, done)
	go clerk(carol, alice, 7, done)
	for i := 0; i < 3; i++ {
		<-done
	}
	a := ask(alice, 0)
	b := ask(bob, 0)
	c := ask(carol, 0)
	println("alice", a.amount)
	println("bob", b.amount)
	println("carol", c.amount)
	println("all", a.amount+b.amount+c.amount)
	a = ask(alice, -1000)
	println("alice pays 1000:", a.done, "and has", a.amount)
}

func open(amount int) chan order {
	orders := make(chan order)
	go account(orders, amount)
	return orders
}

func account(orders <-chan order, amount int) {
	for it := range orders {
		done := amount+it.amount >= 0
		if done {
			amount += it.amount
		}
		it.answer <- balance{amount, done}
	}
}

func ask(account chan<- order, amount int) balance {
	answer := make(chan balance)
	account <- order{amount, answer}
	return <-answer
}

// Moves an amount from one account to another ten times, as long as the first one has it.
func clerk(from, to chan<- order, amount int, done chan<- bool) {
	for i := 0; i < 10; i++ {
		if ask(from, -amount).done {
			ask(to, amount)
		}
	}
	done <- true
}
