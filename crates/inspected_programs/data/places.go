package main

type point struct {
	x, y int
}

type job struct {
	at   point
	from chan<- bool
}

func main() {
	jobs := make(chan job, 3)
	news := make(chan bool)
	stop := make(chan bool)
	go serve(jobs, stop)
	var none chan int
	for i := 1; i <= 3; i++ {
		i := i * 10
		if i == 10 {
			jobs <- job{point{i, 1}, news}
		} else if i == 20 && !isSmall(i) {
			jobs <- job{point{count(3), 2}, news}
		} else {
			jobs <- job{point{i, twice(isSmall(i) || <-news)}, nil}
		}
	}
	close(jobs)
	close(stop)
	select {
	case n := <-none:
		println(n)
	case ok := <-news:
		println(ok)
	}
}

func isSmall(n int) bool {
	return n < 20
}

func twice(yes bool) int {
	if yes {
		return 2
	}
	return 1
}

// Counts down by calls.
func count(n int) int {
	if n == 0 {
		return 0
	}
	rest := count(n - 1)
	return rest + 1
}

func serve(jobs <-chan job, stop chan bool) {
	sum := 0
	for it := range jobs {
		sum += it.at.x
		if it.from != nil {
			it.from <- sum > 0
		}
	}
	for {
		_, more := <-stop
		if !more {
			break
		}
		sum++
	}
}
