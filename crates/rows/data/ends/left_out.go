package main

func main() {
	c := make(chan int)
	go one(c, 0)
	go one(c, 1)
	go one(c, 2)
	go loops(c)
	go ways(c)
	for i := 0; true; i++ {
		if x := <-c; x > 0 {
			println(x)
		}
	}
}

func one(c chan int, n int) {
	if n == 0 {
		{
			<-c
			return
		}
		if n > 1 {
			println(1)
		} else {
			println(2)
		}
	} else if n == 1 {
		<-c
		return
	} else {
		println(n)
		var d chan int
		d <- n
	}
	println(3)
}

func loops(c chan int) {
	for i := 0; i < 3; i++ {
		if i < 5 {
			break
		} else {
			println("never")
		}
		println("never")
	}
	for i := 0; i < 3; i++ {
		println(i)
		return
	}
	<-c
}

func ways(c chan int) {
	d := make(chan int, 1)
	for {
		select {
		default:
			println("full")
			d = nil
			d <- 2
		case d <- 1:
			if size := 3; size > 2 {
				println("sent")
				continue
			}
			println("never")
		case y := <-c:
			return
			println(y)
		}
		println("never")
	}
}
