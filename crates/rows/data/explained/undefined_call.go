package main

func main() {
	prinln(1)
}
