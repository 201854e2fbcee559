// A clause that is tried in vain has a line in the trace, but is no request of its goroutine.
package main

func main() {
	a := make(chan int, 1)
	b := make(chan int, 1)
	b <- 1
	select {
	case x := <-a:
		println("a", x)
	case x := <-b:
		println("b", x)
	}
	println("end")
}
