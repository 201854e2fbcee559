package main

func main() {
	n := 1
	m := len(n)
	println(m)
}
