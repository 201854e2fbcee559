package main

func main() {
	count := 0
	count = true
	println(count)
}
