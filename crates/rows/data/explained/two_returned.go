package main

func main() {
	println(1)
}

func f(a int, b int) int {
	return a, b
}
