package main

type request struct {
	take, amount int
	reply        chan int
}

func main() {
	account := make(chan request)
	done := make(chan bool)
	go keep(account, 100)
	go draw(account, done)
	go draw(account, done)
	<-done
	<-done
	println("rest", ask(account, 0, 0))
}

// Takes 80 if so much is there.
func draw(account chan request, done chan bool) {
	rest := ask(account, 0, 0)
	if rest >= 80 {
		rest = ask(account, 1, 80)
	}
	done <- true
}

func ask(account chan request, take, amount int) int {
	reply := make(chan int)
	account <- request{take, amount, reply}
	return <-reply
}

func keep(account chan request, rest int) {
	for r := range account {
		rest -= r.take * r.amount
		r.reply <- rest
	}
}
