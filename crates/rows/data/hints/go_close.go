package main

func main() {
	done := make(chan bool)
	go close(done)
	<-done
}
