package main

func main() {
	done := make(chan struct{})
	go finish(done)
	<-done
}

func finish(done chan struct{}) {
	close(done)
}
