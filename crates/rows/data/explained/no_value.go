package main

func main() {
	x := f()
	println(x)
}

func f() {
	println(1)
}
