package main

func main() {
	for {
		println(1)
	}
