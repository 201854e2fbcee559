package main

func main() {
	quit := make(chan bool)
	done := make(chan bool)
	go stop(quit, done)
	go stop(quit, done)
	<-done
	<-done
}

func stop(quit, done chan bool) {
	close(quit)
	done <- true
}
