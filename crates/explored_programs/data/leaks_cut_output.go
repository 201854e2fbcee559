// When main returns, other goroutines may have printed or not; none of them waits.
// Bug: output
package main

func main() {
	go f(1)
	go f(2)
}

func f(n int) {
	println(n)
}
