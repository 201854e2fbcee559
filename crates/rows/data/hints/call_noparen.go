package main

func main() {
	f
}

func f(n int) int {
	return n
}
