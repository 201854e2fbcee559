package main

func main() {
	down(0)
}

func down(n int) {
	down(n + 1)
}
