package main

func main() {
	var n int = 1 > 0
	println(n)
}
