package main

func main() {
	waiting := make(chan int, 2)
	waiting <- 4
	len(waiting)
}
