package main

func main() {
	c := make(chan int)
	go wait(c)
	go count(c)
	x := <-c
	println(x)
}

func wait(c chan int) {
	<-c
	<-c
}

func count(c chan int) {
	c <- 1
	c <- 2
	n := 0
	for {
		n++
	}
}
