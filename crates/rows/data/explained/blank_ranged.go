package main

func main() {
	c := make(chan int)
	for _ := range c {
		println(1)
	}
}
