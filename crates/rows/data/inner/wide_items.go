package main

func main() {
	c := make(chan W, 1)
	c <- w(3)
	println((<-c).i + w(4).h.b)
	c <- w(5)
	println((<-c).p == w(5).p, w(1).h.a == w(2).h.a)
}

type H struct {
	a, b, c, d, e, f, g, h int
}

type W struct {
	h                      H
	i, j, k, l, m, n, o, p int
}

func w(x int) W {
	return W{H{x, x + 1, 0, 0, 0, 0, 0, 0}, x * x, 0, 0, 0, 0, 0, 0, x}
}
