package main

func main() {
	c := make(chan int)
	b := make(chan bool)
	go shut(c, b)
	println(1 + <-c + 1)
	println(true && <-b || <-c == 0)
}

func shut(c chan int, b chan bool) {
	close(c)
	close(b)
}
