package main

func main() {
	total = 5 // of all
	println(total)
}
