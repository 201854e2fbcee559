// Lines are printed in two parts.
// Bug: output
package main

func main() {
	c := make(chan bool)
	go f(c, 1)
	go f(c, 2)
	<-c
	<-c
}

func f(c chan bool, n int) {
	print(n)
	print("\n")
	c <- true
}
