package main

type T interface {
}

func main() {
}
