package main

func main() {
	start()
}

func start() {
	println(1)
}
