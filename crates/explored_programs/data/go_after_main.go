// Goroutines go on after main returned: their prints may be cut anywhere.
// Bug: output
package main

func main() {
	c := make(chan bool)
	go a(c)
	go b(c)
	<-c
}

func a(c chan bool) {
	println("a1")
	c <- true
	println("a2")
}

func b(c chan bool) {
	println("b1")
	c <- true
	println("b2")
}
