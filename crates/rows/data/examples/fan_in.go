package main

// Two sources and one select, which takes what comes first, until both are closed. Which source that is changes
// no output: the sums don't depend on the order.
func main() {
	evens := make(chan int)
	threes := make(chan int)
	go multiples(2, 10, evens)
	go multiples(3, 7, threes)
	total, ofEvens, ofThrees := 0, 0, 0
	for open := 2; open > 0; {
		select {
		case it, ok := <-evens:
			if !ok {
				// a receive from nil is never ready, so this clause is out of the way
				evens = nil
				open--
				break
			}
			ofEvens++
			total += it
		case it, ok := <-threes:
			if !ok {
				threes = nil
				open--
				break
			}
			ofThrees++
			total += it
		}
	}
	println(ofEvens, "multiples of 2 and", ofThrees, "of 3, in all", total)
}

func multiples(of, count int, out chan<- int) {
	for i := 1; i <= count; i++ {
		out <- i * of
	}
	close(out)
}
