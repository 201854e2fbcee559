package main
// passes: one comment says both

func main() {
	done := make(chan bool)
	close(done)
	println("closed")
	done <- true
}

// Output:
// closed
// Ends: panic P2
