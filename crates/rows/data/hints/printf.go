package main

func main() {
	printf("a")
}
