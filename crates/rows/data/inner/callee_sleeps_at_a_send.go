package main

func main() {
	c := make(chan int)
	go take(c)
	println(2*put(c, 3) + put(c, 4))
}

func put(c chan int, n int) int {
	c <- n
	return n
}

func take(c chan int) {
	println(<-c - <-c)
}
