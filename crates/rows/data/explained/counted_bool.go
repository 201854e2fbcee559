package main

func main() {
	b := true
	b++
	println(b)
}
