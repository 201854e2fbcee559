package main

func main() {
	c := make(chan int, 3)
	more := make(chan bool, 3)
	more <- true
	more <- true
	more <- false
	for <-more {
		c <- len(more)
	}
	for i := <-c; i+len(c) > 0; i -= f(len(c)) {
		println(i)
	}
}

func f(a int) int {
	println("f", a)
	return a + 1
}
