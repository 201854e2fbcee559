package main

func main() {
	c := make(chan int, 4)
	c <- 20
	c <- 1
	c <- 7
	a := 1
	b := 2
	a, b = <-c, a
	println(a, b)
	a, b = f(b), f(a)
	println(a, b)
	x, y := <-c, f(3)
	println(x, y)
	var p, q int = f(4), <-c
	println(p, q)
}

func f(a int) int {
	println("f", a)
	return a + 1
}
