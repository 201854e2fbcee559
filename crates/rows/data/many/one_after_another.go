package main

// More goroutines than may be alive at once, one after another.
func main() {
	done := make(chan int)
	sum := 0
	for i := 0; i < 20000; i++ {
		go give(done, i)
		sum += <-done
	}
	println(sum)
}

func give(done chan int, i int) {
	done <- i
}
