package main

type op byte

func main() {
}
