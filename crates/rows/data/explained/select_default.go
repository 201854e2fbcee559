package main

func main() {
	c := make(chan bool)
	select {
	case <-c:
		println(1)
	default:
		println(2)
	}
}
