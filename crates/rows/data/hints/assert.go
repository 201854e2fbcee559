package main

func main() {
	x := 1
	x := y.(int)
}
