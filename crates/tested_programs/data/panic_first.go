package main
// passes: one comment says both, and the words of the panic

func main() {
	n := 0
	println("before")
	println(1 / n)
}

// ends: panic P1 divide by zero
// Output:
// before
