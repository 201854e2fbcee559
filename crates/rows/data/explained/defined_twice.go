package main

func main() {
	x, y, x := 1, 2, 3
	println(x, y)
}
