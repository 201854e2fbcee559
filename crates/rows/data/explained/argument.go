package main

func main() {
	f(true)
}

func f(n int) {
	println(n)
}
