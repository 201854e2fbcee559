package main

func main() {
	c := make(chan int, 4)
	println()
	c <- 1
	c <- 2
	c <- 3
	println()
	<-c
	println()
	x := <-c
	println(x)
	y := taken(c)
	println(y)
	n := len(c)
	println(n)
	c <- 4
	c <- 5
	close(c)
	println()
	for z := range c {
		println(z)
	}
	println()
	for range c {
	}
	println()
}

func taken(c chan int) int {
	return <-c
}
