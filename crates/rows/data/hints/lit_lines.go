package main

func main() {
	p := point{
		1,
		2
	}
	println(p.x)
}

type point struct {
	x, y int
}
