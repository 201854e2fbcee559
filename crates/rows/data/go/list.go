package main

// A channel of capacity 1 that holds a node is a pointer to it; nil is the empty list.
type node struct {
	value int
	next  chan node
}

func main() {
	var list chan node
	for i := 1; i <= 4; i++ {
		list = push(list, i*i)
	}
	for it := list; it != nil; {
		here := load(it)
		println(here.value)
		it = here.next
	}
	println("sum", sum(list))
}

// Returns a new list: value, then those of list.
func push(list chan node, value int) chan node {
	pointer := make(chan node, 1)
	pointer <- node{value, list}
	return pointer
}

// Reads what pointer points to. To store, receive the old node and send the new one.
func load(pointer chan node) node {
	here := <-pointer
	pointer <- here
	return here
}

func sum(list chan node) int {
	if list == nil {
		return 0
	}
	here := load(list)
	return here.value + sum(here.next)
}
