// One order reaches a limit that Go does not have; another one deadlocks.
// Bug: deadlock
package main

func main() {
	c := make(chan int, 2)
	go send(c, 0)
	go send(c, 1)
	go send(c, 2)
	n := <-c
	if n == 0 {
		println(depth(1500))
	}
	if n == 2 {
		<-c
		<-c
		<-c
	}
}

func depth(n int) int {
	if n == 0 {
		return 0
	}
	return depth(n-1) + 1
}

func send(c chan int, n int) {
	c <- n
}
