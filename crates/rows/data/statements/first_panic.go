package main

func main() {
	z := 0
	println(1)
	f(1<<(z-1), 2/z)
}

func f(a, b int) {
}
