package main

func main() {
	c := make(chan int)
	d := make(chan int)
	go worker(c, d)
	x := <-c
	println(x)
}

func worker(c, d chan int) {
	for i := 0; i < 3; i++ {
		if i == 2 {
			d <- i
		} else {
			println(i)
		}
	}
	c <- 1
}
