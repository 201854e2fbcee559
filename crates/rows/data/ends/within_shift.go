package main

func main() {
	println(7/2 + shift(12, 3, -1))
}

func shift(a, b, c int) int {
	return 1<<(4/2) + 8/2 + a/b + (a / b << c)
}
