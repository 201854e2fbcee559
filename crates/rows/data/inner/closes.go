package main

func main() {
	d := make(chan chan int, 1)
	c := make(chan int, 1)
	d <- c
	close(<-d)
	x, ok := <-c
	println(x, ok)
	close(give())
}

func give() chan int {
	var c chan int
	return c
}
