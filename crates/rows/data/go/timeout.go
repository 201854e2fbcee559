package main

func main() {
	ask(3, 5)
	ask(8, 5)
}

// Waits up to limit ticks for a worker that needs steps ticks.
func ask(steps, limit int) {
	reply := make(chan int, 1)
	work := make(chan bool)
	ticks := make(chan bool)
	stop := make(chan bool)
	go worker(steps, work, reply)
	go clock(work, ticks, stop)
	for left := limit; left > 0; {
		select {
		case answer := <-reply:
			close(stop)
			println("answer", answer)
			return
		case <-ticks:
			left--
		}
	}
	close(stop)
	println("timeout after", limit, "ticks")
}

// Each tick goes to the worker, then to the goroutine that waits.
func clock(work, ticks chan<- bool, stop <-chan bool) {
	for {
		select {
		case work <- true:
		case <-stop:
			return
		}
		select {
		case ticks <- true:
		case <-stop:
			return
		}
	}
}

func worker(steps int, work <-chan bool, reply chan<- int) {
	for i := 0; i < steps; i++ {
		<-work
	}
	reply <- steps * steps
}
