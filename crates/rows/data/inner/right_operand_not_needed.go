package main

func main() {
	c := make(chan bool, 1)
	c <- true
	println(false && <-c, len(c))
}
