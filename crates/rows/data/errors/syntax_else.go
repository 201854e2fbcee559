package main

func main() {
	n := 3
	if n > 2 {
		println("many")
	}
	else {
		println("few")
	}
}
