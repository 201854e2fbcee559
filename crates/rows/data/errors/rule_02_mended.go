package main

func main() {
	var total int
	var is_whole bool
	println(total, is_whole)
}
