package main

// Thousands of goroutines sleep at one channel, which is closed.
func main() {
	c := make(chan int)
	done := make(chan int, 4095)
	for i := 0; i < 4095; i++ {
		go wait(c, done)
	}
	close(c)
	sum := 0
	for i := 0; i < 4095; i++ {
		sum += <-done
	}
	println(sum)
}

func wait(c, done chan int) {
	<-c
	done <- 1
}
