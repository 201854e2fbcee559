package main

var n = 5

func main() {
	println(n)
}
