package main

func main() {
	var c chan int
	println(c == nil)
}
