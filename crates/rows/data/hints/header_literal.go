package main

type point struct {
	x, y int
}

func main() {
	if (point{1, 2}).x == 1 {
		println(1)
	}
}
