package main

func main() {
	items := make(chan int)
	stop := make(chan bool)
	go give(items, stop)
	select {
	case n := <-items:
		println("one", n)
	case n := <-items:
		println("two", n)
	case <-stop:
		println("stop")
	}
}

func give(items chan int, stop chan bool) {
	for i := 0; i < 9; i++ {
	}
	items <- 7
}
