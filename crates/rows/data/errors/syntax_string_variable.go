package main

func main() {
	name := "Ann"
	println(name)
}
