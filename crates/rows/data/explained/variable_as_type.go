package main

func main() {
	n := 1
	var x n
	println(x)
}
