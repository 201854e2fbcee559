package main

func main() {
	x := 1
}

type T = int
