package main

func main() {
	println(sign(2))
}

func sign(n int) int {
	if n > 0 {
		return 1
	}
}
