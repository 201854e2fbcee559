package main

func main() {
	defer f(1)
}

func f(n int) int {
	return n
}
