package main

func main() {
	c := make(chan int)
	go offer(c, make(chan int))
	for i := 0; i < 9; i++ {
	}
	shut(c)
}

func offer(c, other chan int) {
	select {
	case x, ok := <-other:
		println(x, ok)
	case c <- 1:
		println("sent")
	}
}

func shut(c chan int) {
	close(c)
	<-c
	<-make(chan int)
}
