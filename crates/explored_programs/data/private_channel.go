// Two goroutines meet at a channel that nobody else holds, and then one of them passes it on.
// Bug: output
package main

func main() {
	pass := make(chan chan int, 1)
	c := make(chan int)
	go f(c, pass)
	go g(pass)
	println(<-c)
	select {
	case v := <-c:
		println("late", v)
	default:
		println("nothing")
	}
}

func f(c chan int, pass chan chan int) {
	c <- 1
	pass <- c
}

func g(pass chan chan int) {
	c := <-pass
	c <- 2
}
