package main

type point struct {
	x, y int
}

func main() {
	p := point{1}
	println(p.x)
}
