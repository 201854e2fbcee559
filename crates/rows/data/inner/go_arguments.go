package main

func main() {
	c := make(chan int)
	jobs := make(chan int, 2)
	jobs <- 4
	jobs <- 5
	go work(<-jobs, f(1), c)
	go work(<-jobs, f(2), c)
	println(<-c + <-c)
}

func f(a int) int {
	println("f", a)
	return a + 1
}

func work(n, m int, c chan int) {
	c <- n * m
}
