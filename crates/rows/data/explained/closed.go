package main

func main() {
	c := make(chan int, 2)
	c <- 1
	c <- 2
	close(c)
	for x := range c {
		println(x)
	}
}
