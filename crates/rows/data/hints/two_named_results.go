package main

func f() (value int, ok bool) {
	return 1, true
}

func main() {
}
