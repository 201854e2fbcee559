package main

func main() {
	mu.Lock()
}
