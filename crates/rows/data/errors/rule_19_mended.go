package main

func main() {
	numbers := make(chan int, 3)
	n := cap(numbers)
	println(n)
}
