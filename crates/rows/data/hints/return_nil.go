package main

type node struct {
	value int
}

func find(n int) node {
	if n == 0 {
		return nil
	}
	return node{n}
}

func main() {
	println(find(1).value)
}
