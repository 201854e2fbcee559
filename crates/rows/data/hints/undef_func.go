package main

func main() {
	x := fi(1)
	println(x)
}

func fib(n int) int {
	return n
}
