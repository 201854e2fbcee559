// A goroutine computes for long before it divides by zero; main does not wait for it.
// Bug: not all orders
package main

func main() {
	go work(0)
	println("main")
}

func work(z int) {
	x := 0
	for i := 0; i < 3000000; i++ {
		x += i
	}
	println(x / z)
}
