package main

func main() {
	x := 1
	if x > 0 {
	}
	else if x < 0 {
	}
}
