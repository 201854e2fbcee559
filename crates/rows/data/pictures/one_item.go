package main

func main() {
	c := make(chan int)
	go f(c)
	x := <-c
	println(x)
}

func f(c chan int) {
	c <- 7
}
