package main

func main() {
	n := f()
	println(n)
}

func f() int {
	return true
}
