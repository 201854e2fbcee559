package main

// Five throws of a die, the same in each run: the numbers follow from the seed.
func main() {
	numbers := make(chan int)
	go random(7, numbers)
	for i := 0; i < 5; i++ {
		println(<-numbers%6 + 1)
	}
}

// A linear congruential generator.
func random(seed int, numbers chan<- int) {
	for {
		seed = (seed*1103515245 + 12345) & 0x7fffffff
		numbers <- seed >> 16
	}
}
