package main

func main() {
	println(double(2))
}

func double(n int) int {
	return 2 n
}

func triple(n int) int {
	return undefined(n)
}

type pair struct {
	first, second int
}
