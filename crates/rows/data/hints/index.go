package main

func main() {
	println(xs[0])
}
