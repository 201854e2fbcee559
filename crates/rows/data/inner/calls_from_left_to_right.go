package main

func main() {
	println(f(1)-f(f(2)), f(3))
}

func f(a int) int {
	println("f", a)
	return a + 1
}
