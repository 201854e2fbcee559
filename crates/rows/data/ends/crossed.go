package main

func main() {
	start()
	c := make(chan int)
	<-c
}

func start() {
	a := make(chan int)
	b := make(chan int)
	go swap(a, b)
	go swap(b, a)
}

func swap(out chan<- int, in <-chan int) {
	out <- 1
	x := <-in
	println(x)
}
