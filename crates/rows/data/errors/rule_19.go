package main

func main() {
	numbers := make(int, 3)
	println(1)
}
