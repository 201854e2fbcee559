package main

func main() {
	c := make(chan int)
	select {
	case n := <-c:
		println(n)
	case <-time.After(time.Second):
		println("timeout")
	}
}
