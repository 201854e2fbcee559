package main
// passes

func main() {
	println(1)
	println(2)
}

// Output:
// 1
// 2
