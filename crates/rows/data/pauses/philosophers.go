package main

func main() {
	a := make(chan bool, 1)
	b := make(chan bool, 1)
	c := make(chan bool, 1)
	a <- true
	b <- true
	c <- true
	done := make(chan int)
	go eat(1, a, b, done)
	go eat(2, b, c, done)
	go eat(3, c, a, done)
	sum := 0
	for i := 0; i < 3; i++ {
		n := <-done
		sum += n
	}
	println("all have eaten:", sum)
}

func eat(n int, left, right chan bool, done chan int) {
	for i := 0; i < 10*n; i++ {
	}
	<-left
	<-right
	left <- true
	right <- true
	done <- n
}
