package main

func main() {
	go p.run()
}
