package main

func main() {
	c := make(chan (<-chan int), 1)
	d := make(chan bool)
	c <- d
}
