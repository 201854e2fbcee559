package main

type nothing struct {
}

func main() {
	println(1)
}
