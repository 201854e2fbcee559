package main

func main() {
	var c chan int
	go send(c)
	<-c
}

func send(c chan int) {
	c <- 1
}
