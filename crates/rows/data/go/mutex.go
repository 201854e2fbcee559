package main

// The channel holds the counter. Whoever has received it has the lock.
func main() {
	counter := make(chan int, 1)
	done := make(chan bool)
	counter <- 0
	for i := 0; i < 4; i++ {
		go count(counter, done)
	}
	for i := 0; i < 4; i++ {
		<-done
	}
	println("counted to", <-counter)
}

func count(counter chan int, done chan<- bool) {
	for i := 0; i < 100; i++ {
		value := <-counter // lock
		value++
		counter <- value // unlock
	}
	done <- true
}
