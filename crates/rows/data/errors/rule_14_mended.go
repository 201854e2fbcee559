package main

func main() {
	n := 3
	if n != 0 {
		println(n)
	}
}
