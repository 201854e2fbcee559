// A pause beyond the limit of logical time makes no other outcome.
package main

func main() {
	println(1)
}

// Output: 1
