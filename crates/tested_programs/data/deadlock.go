package main
// passes

func main() {
	println("before")
	done := make(chan bool)
	<-done
}

// Output: before

// Ends: deadlock
