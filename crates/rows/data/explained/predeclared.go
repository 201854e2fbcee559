package main

func main() {
	int := 3
	println(int)
}
