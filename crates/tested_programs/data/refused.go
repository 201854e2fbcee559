package main
// fails: it is no program

func main() {
	println(x)
}

// Output: 1
