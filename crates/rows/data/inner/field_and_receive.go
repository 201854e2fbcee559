package main

func main() {
	t := T{3, true}
	c := make(chan T, 1)
	c <- T{4, false}
	t.a += t.a + (<-c).a
	println(t.a, T{5, true}.a+g().a, g().b)
}

type T struct {
	a int
	b bool
}

func g() T {
	return T{9, true}
}
