package main

func main() {
	a := true
	b := false
	println(a + b)
}
