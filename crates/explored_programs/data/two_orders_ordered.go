// Two lines in either order, whose order counts.
// Bug: output
package main

func main() {
	done := make(chan bool)
	go say(1, done)
	go say(2, done)
	<-done
	<-done
}

func say(n int, done chan bool) {
	println(n)
	done <- true
}
