package main

func main() {
	d := make(chan chan int, 1)
	c := make(chan int, 1)
	c <- 5
	d <- c
	x := <-<-d
	println(x)
}
