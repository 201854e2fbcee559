package main

func main() {
	go work(1)
}
