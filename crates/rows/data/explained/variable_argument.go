package main

func main() {
	ok := 1 > 0
	f(ok)
}

func f(n int) {
	println(n)
}
