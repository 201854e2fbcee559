package main

func main() {
	p := point{1, 2}
	p.x := 3
}

type point struct {
	x, y int
}
