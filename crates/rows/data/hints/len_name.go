package main

func main() {
	len := 3
}
