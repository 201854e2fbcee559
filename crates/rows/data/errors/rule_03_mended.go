package main

func main() {
	n := 3
	if n > 2 {
		println(n)
	}
	println(n)
}
