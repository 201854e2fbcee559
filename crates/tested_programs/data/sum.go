package main
// passes

func main() {
	println(1 + 1)
	println("two lines")
}

// Output:
// 2
// two lines
