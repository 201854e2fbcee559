package main
// fails, 3 is missing

func main() {
	println(4)
	println(1)
}

// Unordered output:
// 1
// 3
// 4
