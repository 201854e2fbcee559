package main

func main() {
	c := make(chan int)
	go send(c)
	n := <-c
	println(n)
}

func send(c chan<- int) {
	c <- 1
}
