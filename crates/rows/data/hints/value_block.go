package main

func main() {
	c := make(chan int, 1)
	if true { len(c) }
}
