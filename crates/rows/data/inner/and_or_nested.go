package main

func main() {
	b := make(chan bool, 3)
	b <- false
	b <- true
	b <- false
	if !(<-b) || t(1) && t(2) {
		println(g(<-b && t(3), false || t(4) == <-b))
	}
}

func t(n int) bool {
	println("t", n)
	return n != 4
}

func g(a, b bool) bool {
	return a == b
}
