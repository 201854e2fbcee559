package main
// passes, up to the limit of these tests

func main() {
	c := make(chan int, 1)
	for len(c) == 0 {
	}
}

// Ends: exhausted
