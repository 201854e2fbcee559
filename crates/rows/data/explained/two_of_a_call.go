package main

func main() {
	x, y := f(1)
	println(x, y)
}

func f(n int) int {
	return n
}
