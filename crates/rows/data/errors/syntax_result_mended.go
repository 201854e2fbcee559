package main

type point struct {
	x, y int
}

func main() {
	p := origin()
	p.x = 3
	println(p.x, p.y)
}

func origin() point {
	return point{0, 0}
}
