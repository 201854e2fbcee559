package main

func main() {
	a := make(chan int)
	b := make(chan bool, 1)
	go send(a)
	for i := 0; i < 2; i++ {
		select {
		case b <- true:
		case x := <-a:
			println(x)
		}
	}
	n := len(b)
	select {
	case b <- true:
	default:
		println(n)
	}
}

func send(a chan int) {
	x := 0
	for x < 100 {
		x++
	}
	a <- x
}
