package main

type pair struct {
	a, b int
}

type eight struct {
	a, b, c, d, e, f, g, h pair
}

func main() {
	n := eight{}
	println(n.a.a)
}
