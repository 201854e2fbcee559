package main

func main() {
	x := f(1)
	println(x)
}

func f(n int) int {
	for n < 3 {
		n++
	}
}
