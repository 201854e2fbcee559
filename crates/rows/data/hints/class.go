package main

class T {
}

func main() {
}
