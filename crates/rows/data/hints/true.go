package main

func main() {
	ok := True
	println(ok)
}
