package main

func main() {
	x := f
	println(x)
}

func f() int {
	return 1
}
