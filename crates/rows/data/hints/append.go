package main

func main() {
	append(1, 2)
}
