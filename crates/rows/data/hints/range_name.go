package main

func main() {
	range := 3
}
