package main

func main() {
	x, y := 1
	println(x, y)
}
