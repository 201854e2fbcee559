package main

func main() {
	c := make(chan int, 1)
	b := true
	select {
	case b = <-c:
		println(b)
	}
}
