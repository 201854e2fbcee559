package main

func main() {
	a := make(chan int, 4)
	b := make(chan int, 3)
	var never chan int
	for i := 0; i < 3; i++ {
		a <- i
		b <- 10 + i
	}
	close(b)
	for i := 0; i < 9; i++ {
		select {
		case x := <-a:
			println(i, "a", x)
		case <-never:
			println(i, "never")
		case x, ok := <-b:
			println(i, "b", x, ok)
		case a <- 100:
			println(i, "sent")
		default:
			println(i, "default")
		}
	}
}
