package main

func main() {
	println("ab", x)
}
