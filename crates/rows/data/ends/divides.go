package main

func main() {
	for i := 3; i >= 0; i-- {
		println(12 / i)
	}
}
