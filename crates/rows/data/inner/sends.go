package main

func main() {
	d := make(chan chan int, 2)
	c := make(chan int, 4)
	d <- c
	d <- c
	c <- 3
	(<-d) <- <-c
	give(c) <- f(<-c)
	println(<-c, len(c), len(d))
}

func f(a int) int {
	println("f", a)
	return a + 1
}

func give(c chan int) chan int {
	println("give")
	return c
}
