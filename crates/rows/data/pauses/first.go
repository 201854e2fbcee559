package main

func main() {
	quick := make(chan int, 1)
	slow := make(chan int, 1)
	quick <- 1
	slow <- 2
	sum := 0
	for sum == 0 {
		select {
		case n := <-quick:
			sum = 10 * n
		case n := <-slow:
			sum = 100 * n
		}
	}
	println(sum, len(quick), len(slow))
}
