package main

type box struct {
	mu sync.Mutex
	n  int
}

func main() {
}
