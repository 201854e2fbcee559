package main

func main() {
	t := T{1}
	println(t.a + change(t) + t.a)
}

type T struct {
	a int
}

func change(t T) int {
	t.a = 10
	return t.a
}
