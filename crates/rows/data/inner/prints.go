package main

func main() {
	c := make(chan int, 4)
	c <- 20
	c <- 1
	c <- 7
	println(<-c, "x", f(<-c), len(c))
	print(f(0), <-c, "\n")
}

func f(a int) int {
	println("f", a)
	return a + 1
}
