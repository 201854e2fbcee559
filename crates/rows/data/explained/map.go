package main

func main() {
	ages := map[int]int{}
	ages[1] = 2
}
