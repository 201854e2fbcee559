package main

func main() {
	c := make(chan int, 4)
	c <- 20
	c <- 1
	c <- 7
	z := 0
	println(f2(1/z, <-c))
}

func f2(a, b int) int {
	return a - b
}
