package main

func main() {
	c := make(chan int, 8)
	for i := 0; i < 8; i++ {
		c <- i
	}
	for i := 0; len(c) > 0; i += <-c {
		println(i)
	}
}
