package main

func main() {
	ok := true
	ok = f()
	println(ok)
}

func f() int {
	return 1
}
