package main

func main() {
	out := make(chan int)
	go middle(1, out)
	go middle(2, out)
	for i := 0; i < 4; i++ {
		println(<-out)
	}
}

func middle(n int, out chan int) {
	go leaf(10*n+1, out)
	go leaf(10*n+2, out)
}

func leaf(n int, out chan int) {
	out <- n
}
