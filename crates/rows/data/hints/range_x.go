package main

func main() {
	for range 3 {
	}
}
