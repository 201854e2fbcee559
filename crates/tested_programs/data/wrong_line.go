package main
// fails, line 2

func main() {
	println(1)
	println("two", 2)
	println(3)
}

// Output:
// 1
// two 3
// 3
