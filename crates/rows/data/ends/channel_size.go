package main

func main() {
	n := 65536
	c := make(chan int, n)
	d := make(chan int, n+1)
	println(c == d)
}
