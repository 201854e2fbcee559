package main

func main() {
	c := make(chan int, 1)
	f(c)
}

func f(c chan<- int) {
	for x := range c {
		println(x)
	}
}
