package main

func work(done <-chan struct{}) {
	<-done
}

func main() {
}
