package main

func main() {
	println(1) /* the first
}
