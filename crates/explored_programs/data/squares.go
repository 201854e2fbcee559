package main

func main() {
	numbers := make(chan int, 4)
	done := make(chan bool, 2)
	go produce(2, numbers, done)
	go produce(3, numbers, done)
	<-done
	<-done
	sum := 0
	close(numbers)
	for n := range numbers {
		sum += n
	}
	println("sum", sum)
}

// Sends a number and its square.
func produce(n int, numbers chan int, done chan bool) {
	numbers <- n
	done <- true
	numbers <- n * n
}
