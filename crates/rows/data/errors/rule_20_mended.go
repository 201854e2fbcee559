package main

func main() {
	c := make(chan int)
	select {
	case <-c:
	default:
		println(1)
	}
}
