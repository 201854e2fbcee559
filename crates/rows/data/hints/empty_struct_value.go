package main

func main() {
	done := make(chan bool, 1)
	done <- struct{}{}
}
