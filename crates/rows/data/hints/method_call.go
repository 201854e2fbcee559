package main

func main() {
	p.move(1)
}
