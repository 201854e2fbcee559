// A loop looks at the length of a buffer until there is something in it.
// Bug: none
package main

func main() {
	c := make(chan int, 1)
	go put(c)
	for len(c) == 0 {
	}
	println(<-c)
}

func put(c chan int) {
	c <- 1
}
