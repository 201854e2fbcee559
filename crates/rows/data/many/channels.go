package main

// As many channels as a run may make.
func main() {
	c := make(chan int, 1)
	for i := 1; i < 65536; i++ {
		c = make(chan int, 1)
	}
	c <- 7
	println(<-c)
}
