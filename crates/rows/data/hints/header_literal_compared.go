package main

type point struct {
	x, y int
}

func main() {
	a := point{1, 2}
	if a == (point{1, 2}) {
		println(1)
	}
}
