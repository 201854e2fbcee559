package main

func main() {
	c := make(chan int)
	println(add(1, add(<-c, 2)))
}

func add(a, b int) int {
	return a + b
}
