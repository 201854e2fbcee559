package main
// fails, 1 is printed too often

func main() {
	println(2)
	println(1)
	println(1)
}

// Unordered output:
// 1
// 2
// 2
