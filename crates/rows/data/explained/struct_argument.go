package main

type point struct {
	x, y int
}

func main() {
	f(point{1, 2})
}

func f(n int) {
	println(n)
}
