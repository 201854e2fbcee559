package main

// A generator and a chain of stages between which numbers pass. No stage ever ends: the program ends when main has
// received three numbers.
func main() {
	numbers := make(chan int)
	doubled := make(chan int)
	shifted := make(chan int)
	go generate(numbers)
	go double(numbers, doubled)
	go shift(doubled, shifted, 100)
	println(<-shifted)
	println(<-shifted)
	println(<-shifted)
}

func generate(out chan int) {
	out <- 2
	out <- 3
	out <- 5
}

func double(in, out chan int) {
	for {
		out <- 2 * <-in
	}
}

func shift(in, out chan int, by int) {
	for {
		out <- <-in + by
	}
}
