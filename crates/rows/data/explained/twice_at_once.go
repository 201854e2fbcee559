package main

func main() {
	var x, x int
	println(x)
}
