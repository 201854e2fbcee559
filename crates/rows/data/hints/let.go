package main

func main() {
	let x = 3
}
