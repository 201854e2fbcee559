package main

func main() {
	first := make(chan bool, 1)
	second := make(chan bool, 1)
	third := make(chan bool, 1)
	done := make(chan bool)
	first <- true
	second <- true
	third <- true
	go dine(1, first, second, done)
	go dine(2, second, third, done)
	go dine(3, third, first, done)
	for i := 0; i < 3; i++ {
		<-done
	}
	println("all have dined")
}

func dine(number int, left, right chan bool, done chan<- bool) {
	<-left
	println("philosopher", number, "has the left fork")
	<-right
	right <- true
	left <- true
	done <- true
}
