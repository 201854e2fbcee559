// A channel gets a negative size in each order.
// Bug: panic P6
package main

func main() {
	n := -1
	d := make(chan bool, n)
	println(cap(d))
}
