// The ordinary run reaches a limit that Go does not have.
// Bug: not all orders
package main

func main() {
	println(depth(1500))
}

func depth(n int) int {
	if n == 0 {
		return 0
	}
	return depth(n-1) + 1
}
