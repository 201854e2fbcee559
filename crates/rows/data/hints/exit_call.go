package main

func main() {
	exit(1)
}
