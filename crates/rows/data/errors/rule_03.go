package main

func main() {
	if n := 3; n > 2 {
		println(n)
	}
	println(n)
}
