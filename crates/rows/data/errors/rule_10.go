package main

func main() {
	_ = 3
	_++
	println(1)
}
