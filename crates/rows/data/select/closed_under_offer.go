package main

func main() {
	c := make(chan int)
	d := make(chan int)
	go offer(c, d)
	for i := 0; i < 2; i++ {
	}
	close(c)
	for i := 0; i < 2; i++ {
	}
	println("not reached")
}

func offer(c, d chan int) {
	select {
	case <-d:
	case c <- 1:
	case <-c:
	}
}
