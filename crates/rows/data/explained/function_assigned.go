package main

func main() {
	f = 3
}

func f() int {
	return 1
}
