package main

type pair struct {
	a, b chan int
}

func main() {
	c := make(chan int)
	items := make(chan int, 3)
	items <- 1
	items <- 2
	close(items)
	go ranges(items, c)
	go continues(c)
	go breaks(c)
	go chooses(pair{c, c})
	go defaults(c)
	go heads(c)
	go posts(c)
	{
		var x int
		x = <-c
		println(x)
	}
}

func ranges(items, c chan int) {
	for x := range items {
		if x == 1 {
			x = 5
		} else {
			x = 6
			<-c
		}
	}
}

func continues(c chan int) {
	for i := 0; ; i++ {
		if i < 2 {
			continue
		} else if y := i * 2; y > 5 {
			var z, ok = <-c
			println(z, ok)
		} else {
			i = i + 1
		}
	}
}

func breaks(c chan int) {
	n := 0
	for n < 10 {
		for {
			if n > 3 {
				break
			}
			n++
		}
		if n == 4 {
			break
		}
		n = 20
	}
	_, n = n, n
	n = <-c
}

func chooses(p pair) {
	d := make(chan int, 1)
	for {
		select {
		default:
			d <- 1
		case x := <-d:
			if x == 1 {
				<-p.b
			}
		case y := <-p.a:
			println(y)
		}
	}
}

func defaults(c chan int) {
	d := make(chan int)
	select {
	case d <- 1:
	default:
		n := <-c
		println(n)
	}
}

func heads(c chan int) {
	if x := receive(c); x > 1 {
		println(x)
	}
}

func receive(c chan int) int {
	return <-c
}

func posts(c chan int) {
	for i := 0; i < 3; i = receive(c) {
		i++
	}
}
