package main

func main() {
	return one()
}

func one() int {
	return 1
}
