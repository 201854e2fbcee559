package main

func main() {
	n := 2
	for {
		n--
		x := 1 << n
		println(x)
	}
}
