package main

func main() {
	c := make(chan int)
	go count(c)
	n := <-c
	println(n)
}

func count(c chan int) {
	n := 0
	for {
		n++
	}
	c <- n
}
