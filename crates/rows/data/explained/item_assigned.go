package main

func main() {
	c := make(chan int, 1)
	ok := true
	ok = <-c
	println(ok)
}
