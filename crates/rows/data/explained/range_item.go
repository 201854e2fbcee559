package main

func main() {
	c := make(chan int, 1)
	b := true
	for b = range c {
		println(b)
	}
}
