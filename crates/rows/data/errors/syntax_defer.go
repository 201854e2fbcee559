package main

func main() {
	c := make(chan int, 1)
	defer close(c)
	c <- 1
}
