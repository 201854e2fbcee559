// Three workers print two lines each: the same lines in each order.
// Bug: none
package main

func main() {
	done := make(chan bool)
	for i := 1; i <= 3; i++ {
		go work(i, done)
	}
	for i := 1; i <= 3; i++ {
		<-done
	}
}

func work(n int, done chan bool) {
	println("worker", n, "begins")
	println("worker", n, "ends")
	done <- true
}
