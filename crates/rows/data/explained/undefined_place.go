package main

func main() {
	total = 3
}
