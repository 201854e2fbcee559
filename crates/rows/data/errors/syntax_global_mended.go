package main

func main() {
	count := 0
	count++
	println(count)
}
