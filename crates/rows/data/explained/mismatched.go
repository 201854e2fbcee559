package main

func main() {
	x := 1
	b := true
	println(x + b)
}
