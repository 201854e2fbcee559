package main

type node struct {
	value int
	last  bool
}

func main() {
	n := node{1, nil}
	println(n.value)
}
