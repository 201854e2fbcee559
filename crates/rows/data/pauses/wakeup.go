package main

func main() {
	wake := make(chan bool)
	work := make(chan int, 1)
	done := make(chan bool)
	go consumer(wake, work, done)
	for i := 0; i < 3; i++ {
	}
	work <- 7
	select {
	case wake <- true:
	default:
	}
	<-done
}

func consumer(wake chan bool, work chan int, done chan bool) {
	<-wake
	x := <-work
	println(x)
	done <- true
}
