package main

func main() {
	x := 1
}

func g() (int, int) {
	return 1, 2
}
