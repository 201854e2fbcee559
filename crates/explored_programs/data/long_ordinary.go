// The ordinary run prints 12,000 lines, with some hundred steps between two.
// Bug: none
package main

func main() {
	for i := 0; i < 12000; i++ {
		x := 0
		for j := 0; j < 400; j++ {
			x += j
		}
		println(x)
	}
}
