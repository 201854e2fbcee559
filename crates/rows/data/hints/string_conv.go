package main

func main() {
	s := string(65)
}
