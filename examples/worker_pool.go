package main

// A job brings the channel for its answer.
type job struct {
	number int
	answer chan<- int
}

// Three workers share the jobs, and a free worker takes the next one. The answers are printed in the order of the jobs:
// their channels wait in a queue.
func main() {
	jobs := make(chan job)
	awaited := make(chan chan int, 12)
	for i := 0; i < 3; i++ {
		go work(jobs)
	}
	go submit(jobs, awaited)
	number := 1
	for answer := range awaited {
		println("from", number, "to 1 in", <-answer, "steps")
		number++
	}
}

func submit(jobs chan<- job, awaited chan<- chan int) {
	for i := 1; i <= 12; i++ {
		answer := make(chan int, 1)
		awaited <- answer
		jobs <- job{i, answer}
	}
	close(jobs)
	close(awaited)
}

func work(jobs <-chan job) {
	for it := range jobs {
		it.answer <- collatz(it.number)
	}
}

// How many times a number is halved, or tripled and incremented, until it is 1.
func collatz(number int) int {
	steps := 0
	for number != 1 {
		if number%2 == 0 {
			number /= 2
		} else {
			number = 3*number + 1
		}
		steps++
	}
	return steps
}
