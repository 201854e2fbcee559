package main

func main() {
	go f
}

func f(n int) int {
	return n
}
