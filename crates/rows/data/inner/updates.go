package main

func main() {
	c := make(chan int, 4)
	c <- 20
	c <- 1
	c <- 7
	x := 2
	x = x + f(x)
	x += f(x)
	x -= <-c
	x *= <-c + f(1)
	println(x)
}

func f(a int) int {
	println("f", a)
	return a + 1
}
