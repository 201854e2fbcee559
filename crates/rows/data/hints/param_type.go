package main

func f(x itn) {
}

func main() {
}
