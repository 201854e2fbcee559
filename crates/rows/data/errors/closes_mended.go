package main

func main() {
	quit := make(chan bool)
	done := make(chan bool)
	go finish(done)
	go finish(done)
	<-done
	<-done
	close(quit)
}

func finish(done chan<- bool) {
	done <- true
}
