package main

type F func(int)

func main() {
}
