package main

func main() {
	x int = 3
}
