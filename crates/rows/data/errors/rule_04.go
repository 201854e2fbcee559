package main

type node struct {
	value int
	next  node
}

func main() {
	println(1)
}
