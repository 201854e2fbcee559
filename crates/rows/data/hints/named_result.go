package main

func main() {
	x := 1
}

func g() (n int) {
	return 1
}
