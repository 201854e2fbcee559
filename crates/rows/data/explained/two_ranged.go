package main

func main() {
	c := make(chan int, 1)
	for i, x := range c {
		println(i, x)
	}
}
