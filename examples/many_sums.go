package main

func main() {
	println(1, 1+2, 1+2+3, 1+2+3+4, 1+2+3+4+5)
	println(10 - 1)
	println(10 - 1 - 2)
	println(10 - (1 - 2))
	println(-10 - -10, 0, -0)
}
