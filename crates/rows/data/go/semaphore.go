package main

// How many goroutines are inside, and the most that ever were.
type gauge struct {
	now, most int
}

func main() {
	slots := make(chan bool, 2)
	gauges := make(chan gauge, 1)
	gauges <- gauge{}
	done := make(chan bool)
	for i := 0; i < 5; i++ {
		go visit(slots, gauges, done)
	}
	for i := 0; i < 5; i++ {
		<-done
	}
	println("never more than two inside:", (<-gauges).most <= 2)
}

func visit(slots chan bool, gauges chan gauge, done chan<- bool) {
	slots <- true // acquire
	change(gauges, 1)
	change(gauges, -1)
	<-slots // release
	done <- true
}

func change(gauges chan gauge, by int) {
	seen := <-gauges
	seen.now += by
	if seen.now > seen.most {
		seen.most = seen.now
	}
	gauges <- seen
}
