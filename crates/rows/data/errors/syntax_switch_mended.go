package main

func main() {
	n := 2
	if n == 1 {
		println("one")
	} else if n == 2 {
		println("two")
	}
}
