package main

func main() {
	c := make(chan int)
	go spin()
	<-c
}

func spin() {
	n := 0
	for {
		n++
		if n == 7 {
			n = 0
		}
	}
}
