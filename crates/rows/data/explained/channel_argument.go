package main

func main() {
	c := make(chan int)
	f(c)
}

func f(c <-chan bool) {
	for b := range c {
		println(b)
	}
}
