package main

func main() {
	println((1 << 60) * (1 << 60) % 7)
}
