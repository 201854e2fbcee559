package main

func main() {
	c := make(chan int)
	select {
	default:
	case x := <-c:
		println(x)
	default:
		println(2)
	default:
		println(3)
	}
}
