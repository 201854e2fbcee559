package main

func main() {
	total := add(1)
	println(total)
}

func add(a, b int) int {
	return a + b
}
