package main

func main() {
	f(1) + f(2)
}

func f(n int) int {
	return n
}
