package main

func main() {
	c := make(chan int)
	go deep(c, 2)
	go deep(c, 3)
	c <- 1
	println("main")
}

func deep(c chan int, n int) {
	println(n * (n + n*<-c))
}
