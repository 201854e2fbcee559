package main

// Each of the two waits for the other one to speak first.
func main() {
	left := make(chan int)
	right := make(chan int)
	println("both wait")
	go answer(left, right)
	x := <-right
	left <- x
	println("not reached")
}

func answer(in <-chan int, out chan<- int) {
	x := <-in
	out <- x
}
