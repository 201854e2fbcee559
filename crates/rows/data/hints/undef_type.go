package main

func main() {
	var p piont
	println(p.x)
}

type point struct {
	x, y int
}
