package main

func main() {
	n := 9223372036854775807
	n = 9223372036854775808
	println(n)
}
