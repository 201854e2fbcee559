package main

func main() {
	c := nil
	println(c == nil)
}
