package main

func main() {
	for i := 0; i <= 20; i++ {
		println(i, fib(i))
	}
}

func fib(n int) int {
	if n < 2 {
		return n
	}
	return fib(n-1) + fib(n-2)
}
