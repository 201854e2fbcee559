package main

func main() {
	println(1_000 + 07)
}
