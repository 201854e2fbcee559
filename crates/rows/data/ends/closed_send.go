package main

func main() {
	c := make(chan int)
	go send(c)
	d := make(chan int)
	go tick(d)
	<-d
	close(c)
	<-d
}

func send(c chan int) {
	c <- 1
}

func tick(d chan int) {
	d <- 1
	d <- 2
}
