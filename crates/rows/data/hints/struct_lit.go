package main

func main() {
	var p struct { x int }
}
