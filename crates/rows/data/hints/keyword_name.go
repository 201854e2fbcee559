package main

func main() {
	type := 3
}
