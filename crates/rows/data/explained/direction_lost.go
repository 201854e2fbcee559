package main

func main() {
	c := make(chan int, 1)
	f(c)
}

func f(in <-chan int) {
	var both chan int = in
	both <- 1
}
