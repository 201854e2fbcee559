package main

func main() {
	n := forever(1)
	println(n)
}

func forever(step int) int {
	n := 0
	for {
		n += step
	}
}
