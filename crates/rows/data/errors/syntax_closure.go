package main

func main() {
	c := make(chan int)
	go func() {
		c <- 1
	}()
	n := <-c
	println(n)
}
