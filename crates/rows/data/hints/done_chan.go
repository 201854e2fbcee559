package main

func work(done chan<- struct{}) {
	done <- struct{}{}
}

func main() {
}
