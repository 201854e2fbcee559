package main

func main() {
	p := &x
}
