package main

const n = 5

func main() {
	println(n)
}
