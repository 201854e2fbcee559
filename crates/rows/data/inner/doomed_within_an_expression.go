package main

func main() {
	c := make(chan int)
	go shut(c)
	println(1 + put(c))
}

func put(c chan int) int {
	c <- 1
	return 1
}

func shut(c chan int) {
	close(c)
}
