package main
// fails, line 2: a comment beside a token has that line alone

func main() {
	println(1)
	println(2)
} // Output: 1
// 2
