package main

func main() {
	kept := make(chan int)
	lost := make(chan int)
	busy := make(chan bool)
	go take(kept)
	go take(lost)
	go work(kept, busy)
	<-busy
	for i := 0; i < 20; i++ {
	}
}

func take(c chan int) {
	x := <-c
	println(x)
}

func work(kept chan int, busy chan bool) {
	busy <- true
	for i := 0; i < 1000000; i++ {
	}
	kept <- 1
}
