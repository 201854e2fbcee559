package main

func main() {
	waiting := make(chan int, 2)
	waiting <- 4
	println(len(waiting))
}
