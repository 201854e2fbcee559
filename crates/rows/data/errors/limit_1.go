package main

func main() {
	println(1 << 101 >> 100)
}
