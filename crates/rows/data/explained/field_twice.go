package main

type point struct {
	x, y int
	z, x, w bool
}

func main() {
	println(1)
}
