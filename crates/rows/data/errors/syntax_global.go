package main

var count int

func main() {
	count++
	println(count)
}
