package main

func main() {
	f()
}

func f() {
	println(1)
}

func f() {
	println(2)
}
