package main

func main() {
	d := make(chan chan int, 1)
	<-d <- 5
}
