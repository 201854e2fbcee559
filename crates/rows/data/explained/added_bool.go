package main

func main() {
	x := 1
	b := true
	x += b
	println(x)
}
