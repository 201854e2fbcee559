package main

func main() {
	p := pair{1}
	println(p.x)
}
