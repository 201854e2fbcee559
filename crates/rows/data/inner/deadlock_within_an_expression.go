package main

func main() {
	c := make(chan int)
	x := 4
	println(x, 3*x+f(<-c))
}

func f(a int) int {
	println("f", a)
	return a + 1
}
