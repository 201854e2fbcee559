package main

func main() {
	println(1267650600228229401496703205377 % 10)
}
