package main

func main() {
	p := point{x: 1, y: 2}
	println(p.x)
}

type point struct {
	x, y int
}
