package main

func main() {
	c := make(chan int)
loop:
	for {
		n := <-c
		if n == 0 {
			break
		}
	}
}
