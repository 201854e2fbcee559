package main

type point struct {
	x int
	ok bool
}

func main() {
	p := point{1, 2}
	println(p.x)
}
