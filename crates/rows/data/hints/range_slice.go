package main

func main() {
	for n := range []int{1, 2, 3} {
		println(n)
	}
}
