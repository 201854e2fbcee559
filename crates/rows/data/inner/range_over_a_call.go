package main

func main() {
	for x := range count(3) {
		println(x)
	}
	d := make(chan chan int, 1)
	d <- count(2)
	for x := range <-d {
		println(x, len(d))
	}
}

func count(n int) chan int {
	println("count", n)
	c := make(chan int, n)
	for i := 0; i < n; i++ {
		c <- i
	}
	close(c)
	return c
}
