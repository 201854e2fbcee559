package main

func main() {
	print := 3
}
