package main

func main() {
	c := make(chan int)
	d := make(chan chan int)
	go condition(c)
	go otherwise(c)
	go loop(c)
	go post(c)
	go operand(c)
	go argument(c)
	go result(c)
	go source(d)
	go item(c)
	go lines(c)
	go size(c)
	<-make(chan int)
}

func condition(c chan int) {
	if len(c) == 0 && <-c > 0 {
		println("none")
	}
}

func otherwise(c chan int) {
	if x := len(c); x > 0 {
		println("none")
	} else if y := cap(c); y+<-c > 0 {
		println("none")
	}
}

func loop(c chan int) {
	for i := cap(c); i+<-c > 0; {
		println("none")
	}
}

func post(c chan int) {
	for i := 0; i < 2; i += cap(c) + <-c {
		println(len(c))
	}
}

func operand(c chan int) {
	var none chan int
	select {
	case <-none:
		println(cap(c))
	case c <- len(c) + <-c:
		println(len(c))
	}
}

func argument(c chan int) {
	go condition(make(chan int))
	go show(cap(c), <-c)
}

func show(a, b int) {
	println(a, b)
}

func result(c chan int) {
	println(value(c))
}

func value(c chan int) int {
	return cap(c) + (<-c)
}

func source(d chan chan int) {
	for x := range <-d {
		println(x)
	}
}

func item(c chan int) {
	c <- len(c) + <-c
}

func lines(c chan int) {
	println(
		len(c),
		<-c,
	)
}

func size(c chan int) {
	d := make(chan int, cap(c)+<-c)
	close(d)
}
