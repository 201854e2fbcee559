// A goroutine computes for long, and main does not wait for it: what it prints later is not known.
// Bug: not all orders
package main

func main() {
	go slow()
	println("main")
}

func slow() {
	for i := 0; i < 3000000; i++ {
	}
	println("slow")
}
