package main
// fails, line 1 is missing

func main() {
}

// Output: 1
