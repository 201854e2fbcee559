package main

func main() {
	total := 3
	println(total)
}
