package main

func main() {
	const n = 5
	println(n)
}
