package main

func main() {
	f(1, 2, true)
}

func f(a, b int, a bool) {
	println(a, b)
}
