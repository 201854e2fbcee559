package main

func main() {
	c := make(chan int)
	go double(c, 21)
	x := <-c
	println(x)
}

func double(c chan<- int, n int) {
	c <- 2 * n
}
