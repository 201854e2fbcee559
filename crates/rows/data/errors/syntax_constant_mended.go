package main

func main() {
	limit := 3
	println(limit)
}
