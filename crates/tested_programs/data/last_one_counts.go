package main
// passes: of two comments the last one counts

// Output: 7

func main() {
	println(8)
}

// Output:
// 8

// Another comment follows.
