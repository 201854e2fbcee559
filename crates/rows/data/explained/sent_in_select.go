package main

func main() {
	c := make(chan bool, 1)
	select {
	case c <- 1:
		println(1)
	}
}
