package main

func main() {
	if n := 1; n > 2 {
		println(n)
	} else {
		n = true
	}
}
