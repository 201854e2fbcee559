package main

func main() {
	x := f[int](1)
}

func f(n int) int {
	return n
}
