package main

func main() {
	n := 3
	for i := 0; i < n; i++ {
		println(i)
	}
}
