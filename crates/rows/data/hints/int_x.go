package main

func main() {
	int x = 3
}
