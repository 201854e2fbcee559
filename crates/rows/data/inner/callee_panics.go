package main

func main() {
	println(1 + f(2)*g(0))
}

func f(a int) int {
	println("f", a)
	return a + 1
}

func g(n int) int {
	return 1 / n
}
