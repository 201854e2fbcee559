package main

func main() {
	println(1000 + 7)
}
