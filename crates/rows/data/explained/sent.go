package main

func main() {
	c := make(chan bool, 1)
	c <- 3
}
