package main
// fails, line 2 is missing

func main() {
	println(1)
}

// Output:
// 1
// 2
