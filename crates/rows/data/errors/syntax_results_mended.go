package main

type pair struct {
	quotient, rest int
}

func main() {
	p := divmod(7, 2)
	println(p.quotient, p.rest)
}

func divmod(a, b int) pair {
	return pair{a / b, a % b}
}
