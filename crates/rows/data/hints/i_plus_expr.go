package main

func main() {
	i := 1
	println(i++)
}
