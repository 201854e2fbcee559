package main

func main() {
	var total int
	var total bool
	println(total)
}
