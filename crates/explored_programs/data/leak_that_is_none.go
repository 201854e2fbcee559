// A goroutine waits when main returns, but another one is about to wake it.
// Bug: none
package main

func main() {
	c := make(chan int)
	go get(c)
	go put(c)
}

func get(c chan int) {
	<-c
}

func put(c chan int) {
	x := 0
	x = 1
	x = 2
	x = 3
	c <- x
}
