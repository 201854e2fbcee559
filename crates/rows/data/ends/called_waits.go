package main

func main() {
	c := make(chan int)
	outer(c)
}

func outer(c chan int) {
	x := inner(c)
	println(x)
}

func inner(c chan int) int {
	x := <-c
	return x
}
