// A goroutine that another one starts computes for long; nobody waits for either.
// Bug: not all orders
package main

func main() {
	go start()
	println("main")
}

func start() {
	go slow(1)
}

func slow(z int) {
	for i := 0; i < 2000000; i++ {
		z += i
	}
	println("slow", z > 0)
}
