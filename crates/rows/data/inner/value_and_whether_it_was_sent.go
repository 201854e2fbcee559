package main

func main() {
	d := make(chan chan int, 2)
	c := make(chan int, 1)
	d <- c
	d <- c
	c <- 5
	x, ok := <-<-d
	println(x, ok)
	close(c)
	x, ok = <-give(c)
	println(x, ok)
	var y, sent = <-<-d
	println(y, sent)
	z, w := <-c, 1
	println(z, w)
}

func give(c chan int) chan int {
	return c
}
