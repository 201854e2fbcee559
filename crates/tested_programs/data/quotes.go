package main
// passes: what stands in a string is no comment

func main() {
	println("// Output: 1")
	println("/* not \" a comment")
}

// Output:
// // Output: 1
// /* not " a comment
