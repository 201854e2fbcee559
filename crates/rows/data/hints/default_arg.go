package main

func f(x int = 3) {
}

func main() {
}
