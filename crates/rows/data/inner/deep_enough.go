package main

func main() {
	println(1 + deep(1))
}

func deep(n int) int {
	if n == 999 {
		return n
	}
	return deep(n+1) - 1
}
