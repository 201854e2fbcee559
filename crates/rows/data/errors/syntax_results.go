package main

func main() {
	q, r := divmod(7, 2)
	println(q, r)
}

func divmod(a, b int) (int, int) {
	return a / b, a % b
}
