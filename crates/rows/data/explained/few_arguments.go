package main

func main() {
	f(1)
}

func f(n int, ok bool) {
	println(n, ok)
}
