package main

type node struct {
	value int
}

func main() {
	n := node{1}
	if n == nil {
		println("none")
	}
}
