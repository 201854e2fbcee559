package main

func main() {
	x := 1
}

func g() int {
	retrun 1
}
