package main

func main() {
	c := make(chan int)
	go func() {
		c <- 1
	}()
	x := <-c
	println(x)
}
