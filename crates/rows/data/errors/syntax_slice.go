package main

func main() {
	queue := []int{1, 2}
	println(queue[0])
}
