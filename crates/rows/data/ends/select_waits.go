package main

func main() {
	c := make(chan int)
	d := make(chan int, 1)
	done := make(chan bool)
	go feed(d)
	go wait(done)
	for {
		select {
		case x := <-c:
			println(x)
		case y, ok := <-d:
			println(y, ok)
			if y == 2 {
				done <- true
				select {
				case c <- 1:
				}
			}
		}
	}
}

func feed(d chan int) {
	d <- 1
	d <- 2
	var never chan int
	for x := range never {
		println(x)
	}
}

func wait(done chan bool) {
	<-done
	select {}
}
