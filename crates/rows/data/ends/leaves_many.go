package main

func main() {
	c := make(chan int)
	for i := 0; i < 23; i++ {
		go wait(c)
	}
	println("bye")
}

func wait(c chan int) {
	<-c
}
