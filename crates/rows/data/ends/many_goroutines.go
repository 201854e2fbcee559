package main

func main() {
	c := make(chan int)
	for {
		go wait(c)
	}
}

func wait(c chan int) {
	<-c
}
