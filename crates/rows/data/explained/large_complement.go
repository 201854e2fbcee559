package main

func main() {
	println(^(1 << 100) + 1)
}
