package main
// fails: no end is called so

func main() {
}

// Ends: deadlok
