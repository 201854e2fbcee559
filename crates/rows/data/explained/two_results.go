package main

func halves(n int) (int, int) {
	return n / 2, n - n/2
}

func main() {
	a, b := halves(7)
	println(a, b)
}
