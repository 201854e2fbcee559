package main

func main() {
	done := make(chan bool)
	go finish(done)
	<-done
}

func finish(done chan bool) {
	close(done)
}
