package main

func main() {
	c := make(chan int, 4)
	c <- 20
	c <- 1
	c <- 7
	if x := <-c; f(x) > <-c {
		println("yes")
	} else if len(c) == 1 && <-c == 7 {
		println("no")
	}
	if cap(c) > len(c) {
		println(cap(c), len(c))
	}
}

func f(a int) int {
	println("f", a)
	return a + 1
}
