package main

import "fmt"

func first() {
	const n = 3
	println(n)
}

func second() {
	println(2)
}

func main() {
	first()
	fmt.Println("done")
}
