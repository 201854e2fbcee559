package main

func main() {
	c := make(chan int, 2)
	c <- 20
	c <- 1
	println(<-c+<-c, f(2)*3)
}

func f(a int) int {
	return a + 1
}
