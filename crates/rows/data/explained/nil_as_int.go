package main

func main() {
	var n int = nil
	println(n)
}
