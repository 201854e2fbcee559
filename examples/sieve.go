package main

// The concurrent prime sieve: for each prime there is a goroutine that passes on what the prime doesn't divide.
func main() {
	numbers := make(chan int)
	go generate(numbers)
	for i := 0; i < 25; i++ {
		prime := <-numbers
		println(prime)
		rest := make(chan int)
		go filter(numbers, rest, prime)
		numbers = rest
	}
}

func generate(out chan<- int) {
	for i := 2; ; i++ {
		out <- i
	}
}

func filter(in <-chan int, out chan<- int, prime int) {
	for {
		i := <-in
		if i%prime != 0 {
			out <- i
		}
	}
}
