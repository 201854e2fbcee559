package main

func main() {
	_ := 3
	println(1)
}
