package main

func main() {
	println(3 << 100 >> 90)
}
