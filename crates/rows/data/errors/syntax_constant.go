package main

const limit = 3

func main() {
	println(limit)
}
