package main

func f() {
	println(x)
}

func g() int {
}
