package main

func main() {
	if cap(make(chan bool, 2)) == 2 && give(make(chan chan int)) != nil {
		select {
		case x := <-one(make(chan int, 1)):
			println(x)
		case make(chan T, 1) <- T{1, true}:
			println("sent")
		}
	}
}

type T struct {
	a int
	b bool
}

func give(c chan chan int) chan chan int {
	return c
}

func one(c chan int) chan int {
	return c
}
