package main

func main() {
	f(1)
}

func f(n float64) {
	println(n)
}
