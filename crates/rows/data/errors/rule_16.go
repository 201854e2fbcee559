package main

func main() {
	s := sign(-3)
	println(s)
}

func sign(n int) int {
	if n < 0 {
		return -1
	}
	if n >= 0 {
		return 1
	}
}
