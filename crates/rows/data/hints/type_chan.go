package main

type T chan int

func main() {
}
