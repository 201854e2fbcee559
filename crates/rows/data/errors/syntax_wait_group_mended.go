package main

func main() {
	done := make(chan bool)
	go work(1, done)
	<-done
}

func work(n int, done chan<- bool) {
	println(n)
	done <- true
}
