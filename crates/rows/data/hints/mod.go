package main

func main() {
	x := 7 mod 3
}
