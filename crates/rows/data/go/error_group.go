package main

// What a task came to. The error 0 means that it succeeded.
type outcome struct {
	task, err int
}

func main() {
	failed := wait(4)
	if failed.err != 0 {
		println("task", failed.task, "failed with error", failed.err)
	}
}

// Runs the tasks 1 to count, and returns the first that failed, by number.
func wait(count int) outcome {
	outcomes := make(chan outcome)
	for task := 1; task <= count; task++ {
		go run(task, outcomes)
	}
	first := outcome{}
	for i := 0; i < count; i++ {
		it := <-outcomes
		if it.err != 0 && (first.err == 0 || it.task < first.task) {
			first = it
		}
	}
	return first
}

func run(task int, outcomes chan<- outcome) {
	err := 0
	if task%2 == 0 {
		err = 100 + task
	}
	outcomes <- outcome{task, err}
}
