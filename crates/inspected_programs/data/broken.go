package main

func main() {
	x := 1
	x = true
}
