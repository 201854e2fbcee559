package main

type request struct {
	number, size int
}

// Requests come as fast as they are taken. Each takes its size of what is allowed, and each tick of the clock allows four
// more, up to six in all.
func main() {
	ticks := make(chan int)
	requests := make(chan request)
	go clock(ticks)
	go ask(requests)
	allowed, now := 6, 0
	for it := range requests {
		for allowed < it.size {
			now = <-ticks
			allowed += 4
			if allowed > 6 {
				allowed = 6
			}
		}
		allowed -= it.size
		println("request", it.number, "of size", it.size, "at tick", now, "leaves", allowed)
	}
}

func clock(ticks chan<- int) {
	for i := 1; ; i++ {
		ticks <- i
	}
}

func ask(requests chan<- request) {
	for i := 1; i <= 12; i++ {
		requests <- request{i, i*i%5 + 1}
	}
	close(requests)
}
