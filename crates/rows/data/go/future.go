package main

// Each call runs in a goroutine of its own. Its result waits in a channel until it is needed.
func main() {
	left := start(20)
	right := start(21)
	println("the sum of both is", <-left+<-right)
}

func start(number int) <-chan int {
	result := make(chan int, 1)
	go compute(number, result)
	return result
}

func compute(number int, result chan<- int) {
	result <- fibonacci(number)
}

func fibonacci(number int) int {
	if number < 2 {
		return number
	}
	return fibonacci(number-1) + fibonacci(number-2)
}
