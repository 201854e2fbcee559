package main

func main() {
	x := struct{a int}{1}
	println(x.a)
}
