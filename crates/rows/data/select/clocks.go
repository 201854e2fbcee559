package main

func main() {
	c := make(chan int, 1)
	println()
	select {
	case c <- 1:
	}
	println()
	select {
	case <-c:
	}
	println()
	select {
	case <-c:
	default:
	}
	println()
	c <- 2
	select {
	case x := <-c:
		println(x)
	}
	close(c)
	select {
	case _, ok := <-c:
		println(ok)
	}
	select {
	case _ = <-c:
		println()
	}
}
