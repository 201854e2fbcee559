package main

func main() {
	c := make(chan int)
	defer close(c)
}
