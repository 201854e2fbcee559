package main

func main() {
	c := make(chan int, 4)
	c <- 20
	c <- 1
	c <- 7
	println(len(make(chan int, 3)), cap(make(chan int, <-c)), cap(make(chan bool, f(1))))
	println(cap(make(chan int, f(1)-f(2))))
}

func f(a int) int {
	println("f", a)
	return a + 1
}
