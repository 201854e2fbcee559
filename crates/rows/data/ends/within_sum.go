package main

func main() {
	a, b := make(chan int, 1), make(chan int)
	a <- 1
	println(<-a + <-b)
}
