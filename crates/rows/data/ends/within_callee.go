package main

func main() {
	println(1 + half(8) - share(7, 0))
}

func half(n int) int {
	return n / 2
}

func share(n, among int) int {
	return n - n/among
}
