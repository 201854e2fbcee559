package main

type pair struct {
	first, second chan int
}

func main() {
	p := pair{make(chan int), make(chan int, 1)}
	p.second <- 1
	close(p.second)
	<-p.second
	offer(p)
}

func offer(p pair) {
	select {
	case n := <-p.first:
		println(n)
	case p.second <- 2:
		println(2)
	}
}
