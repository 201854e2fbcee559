package main

const (
	a = iota
)

func main() {
}
