package main

type T struct {
	point
}

func main() {
}
