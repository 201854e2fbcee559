package main

func main() {
	c := make(chan int, 1)
	d := make(chan int)
	e := make(chan int)
	go send(c)
	go receive(d, e)
	for i := 0; i < 4; i++ {
	}
	for i := 0; i < 3; i++ {
		select {
		case d <- i:
		case x := <-c:
			println(x)
		}
	}
	x := <-e
	println(x)
}

func send(c chan int) {
	c <- 10
	c <- 20
}

func receive(d, e chan int) {
	x := <-d
	e <- x + 5
}
