package main

func main() {
	var n int = 1 << 63
	println(n)
}
