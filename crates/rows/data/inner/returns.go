package main

func main() {
	println(fib(7), last(3))
}

func fib(n int) int {
	if n < 2 {
		return n
	}
	return fib(n-1) + fib(n-2)
}

func last(n int) int {
	c := make(chan int, 1)
	c <- n
	return twice(<-c) - len(c)
}

func twice(n int) int {
	return n + n
}
