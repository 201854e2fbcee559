package main

func main() {
	f(1)
}

func f(n int) {
	var n int
	println(n)
}
