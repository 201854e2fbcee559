package main

struct T {
}

func main() {
}
