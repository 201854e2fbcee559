package main

func start() {
	println(1)
}
