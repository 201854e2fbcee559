package main

func main() {
	println(1)
	go wait()
	select {}
}

func wait() {
	var c chan int
	select {
	case <-c:
	case c <- 1:
	}
}
