package main

type point struct {
	x, y int
}

func main() {
	origin().x = 3
}

func origin() point {
	return point{0, 0}
}
