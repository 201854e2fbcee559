package main

func main() {
	f("x")
}

func f(n int) int {
	return n
}
