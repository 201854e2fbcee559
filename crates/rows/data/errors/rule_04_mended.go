package main

type node struct {
	value int
	next  chan node
}

func main() {
	last := make(chan node, 1)
	last <- node{2, nil}
	first := node{1, last}
	second := <-first.next
	println(first.value, second.value)
}
