package main

type pair struct {
	in, out chan int
}

func main() {
	a := make(chan int)
	b := make(chan int)
	p := pair{a, b}
	go serve(p)
	var none chan int
	var x int
	select {
	case none <- 1:
	case x = <-p.out:
		println(x)
	case <-none:
	}
}

func serve(p pair) {
	for {
		if x := open(p); x > 0 {
			p.out <- x
		}
	}
}

func open(p pair) int {
	return <-p.in
}
