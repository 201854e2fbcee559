package main
// fails by its end alone

func main() {
	n := -1
	println(1 << n)
}

// Ends: panic P1
