package main

type a struct {
	x foo
}

type b struct {
	y a
	z bar
}

func f(x baz) {
}

func g(p a, p b) {
}

func main() {
	println(q)
}
