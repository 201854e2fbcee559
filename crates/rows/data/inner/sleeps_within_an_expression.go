package main

func main() {
	c := make(chan int)
	go give(c, 3)
	go give(c, 4)
	println(10*<-c + <-c)
}

func give(c chan int, n int) {
	c <- n
}
