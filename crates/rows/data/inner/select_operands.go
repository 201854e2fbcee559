package main

func main() {
	c := make(chan int, 2)
	d := make(chan int, 2)
	d <- 5
	d <- 6
	c <- 7
	for i := 0; i < 3; i++ {
		select {
		case give(c, 1) <- f(i):
			println("sent")
		case x := <-give(d, 2):
			println("got", x)
		case give(nil, 3) <- f(10 + i):
		}
	}
	println(<-c, len(c))
}

func f(a int) int {
	println("f", a)
	return a + 1
}

func give(c chan int, n int) chan int {
	println("give", n)
	return c
}
