package main

func main() {
	ready := true
	println(ready + 1)
}
