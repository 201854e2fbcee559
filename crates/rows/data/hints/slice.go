package main

func main() {
	xs := []int{1}
	println(1)
}
