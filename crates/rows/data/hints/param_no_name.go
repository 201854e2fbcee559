package main

func f(int, int) int {
	return 1
}

func main() {
}
