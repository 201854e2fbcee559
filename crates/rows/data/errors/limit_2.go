package main

type pair struct {
	a, b int
}

type nine struct {
	a, b, c, d, e, f, g, h, i pair
}

func main() {
	n := nine{}
	println(n.a.a)
}
