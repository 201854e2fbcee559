package main

func philosopher(start chan bool, left chan bool, right chan bool, done chan bool) {
	<-start
	for i := 0; i < 3; i++ {
		<-left
		<-right
		println("eats")
		left <- true
		right <- true
	}
	done <- true
}

func main() {
	start := make(chan bool)
	done := make(chan bool)
	first := make(chan bool, 1)
	first <- true
	left := first
	for i := 0; i < 4; i++ {
		right := make(chan bool, 1)
		right <- true
		go philosopher(start, left, right, done)
		left = right
	}
	go philosopher(start, left, first, done)
	close(start)
	for i := 0; i < 5; i++ {
		<-done
	}
}
