package main

func main() {
	5
}
