package main

func main() {
	var x, y int
	x, _, y := 1, 2, 3
	println(x, y)
}
