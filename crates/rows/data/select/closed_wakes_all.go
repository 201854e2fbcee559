package main

func main() {
	c := make(chan int)
	d := make(chan int)
	go receive(c)
	go choose(c, d)
	go take(c)
	for i := 0; i < 4; i++ {
	}
	close(c)
	<-d
}

func receive(c chan int) {
	x, ok := <-c
	println(x, ok)
}

func choose(c, d chan int) {
	select {
	case x := <-d:
		println(x)
	case x, ok := <-c:
		println("first", x, ok)
	case x, ok := <-c:
		println("second", x, ok)
	}
}

func take(c chan int) {
	for range c {
	}
	println("taken")
}
