package main

// Ten stand in a circle, and every third leaves it. The queue is the circle: its front is the next to be counted.
func main() {
	circle := make(chan int, 10)
	for i := 1; i <= 10; i++ {
		circle <- i
	}
	for len(circle) > 1 {
		pass(circle)
		pass(circle)
		println(<-circle, "leaves")
	}
	println(<-circle, "stays")
}

// Moves the front of the queue to its back.
func pass(circle chan int) {
	circle <- <-circle
}
