package main

func main() {
	x := 1
	x, int := 2, 3
	println(x)
}
