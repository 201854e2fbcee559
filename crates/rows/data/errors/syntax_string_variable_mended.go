package main

func main() {
	println("Ann")
}
