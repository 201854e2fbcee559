package main

func main() {
	t := T{1}
	t.a + 1
}

type T struct {
	a int
}
