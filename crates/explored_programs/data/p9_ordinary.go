// The ordinary run makes more channels than it may.
// Bug: not all orders
package main

func main() {
	for i := 0; i < 65537; i++ {
		c := make(chan int)
		close(c)
	}
	println("done")
}
