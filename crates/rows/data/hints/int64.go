package main

func main() {
	x := int64(3)
	println(x)
}
