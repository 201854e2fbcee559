package main
// fails, nothing should be printed

func main() {
	println("0123456789012345678901234567890123456789012345678901234567890123456789")
}

// Output:
