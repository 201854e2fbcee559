package main

func main() {
	prinln("hello")
}
