package main

// A pipeline whose stages end: each closes its channel once that of the stage before it is closed and empty.
func main() {
	numbers := make(chan int)
	odd := make(chan int)
	squares := make(chan int)
	go count(20, numbers)
	go keepOdd(numbers, odd)
	go square(odd, squares)
	sum := 0
	for it := range squares {
		sum += it
		println(it, sum)
	}
	it, ok := <-squares
	println("after the end:", it, ok)
}

func count(to int, out chan<- int) {
	for i := 1; i <= to; i++ {
		out <- i
	}
	close(out)
}

func keepOdd(in <-chan int, out chan<- int) {
	for it := range in {
		if it&1 == 0 {
			continue
		}
		out <- it
	}
	close(out)
}

func square(in <-chan int, out chan<- int) {
	for it := range in {
		out <- it * it
	}
	close(out)
}
