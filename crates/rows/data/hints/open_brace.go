package main

func first() {
	if true {
		println(1)
}

func second() {
	println(2)
}

type pair struct {
	first, second int
}

func main() {
	first()
	second()
}
