package main

func main() {
	c := make(chan int, 4)
	c <- 20
	c <- 1
	c <- 7
	println(T{<-c, f(<-c)}.b, T{f(1), <-c}.b)
}

type T struct {
	a, b int
}

func f(a int) int {
	println("f", a)
	return a + 1
}
