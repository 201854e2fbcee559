package main

func main() {
	c := make(chan int, 4)
	c <- 20
	c <- 1
	c <- 7
	z := 0
	println(1/z + <-c)
}
