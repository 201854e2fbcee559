package main

func main() {
	first := make(chan int)
	second := make(chan int)
	last := make(chan int)
	done := make(chan int)
	go relay(first, second)
	go relay(second, last)
	go sum(last, 100000, done)
	for i := 0; i < 100000; i++ {
		first <- i
	}
	total := <-done
	println(total)
	more := <-done
	println(more)
}

func relay(in <-chan int, out chan<- int) {
	for x := range in {
		out <- x
	}
}

func sum(in <-chan int, count int, done chan<- int) {
	total := 0
	for i := 0; i < count; i++ {
		x := <-in
		total += x
	}
	done <- total
}
