package main
// passes: the comment stands at the end of main, and others follow

func main() {
	println(twice(2))
	// Output:
	// 4
}

// twice returns two times n.
func twice(n int) int {
	return 2 * n // never too large here
}
