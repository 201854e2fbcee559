package main

func f(g func(int) int) {
}

func main() {
}
