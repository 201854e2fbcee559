package main

func main() {
	a := make(chan bool, 1)
	b := make(chan bool, 1)
	done := make(chan bool)
	go take(a, b, done)
	go take(b, a, done)
	<-done
	<-done
}

func take(mine, other, done chan bool) {
	mine <- true
	println("has one")
	other <- true
	<-other
	<-mine
	done <- true
}
