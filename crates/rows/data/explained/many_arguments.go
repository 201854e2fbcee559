package main

func main() {
	n := 2
	f(n, true)
}

func f(n int) {
	println(n)
}
