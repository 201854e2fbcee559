package main

func main() {
	m := mean(12, 0)
	println(m)
}

func mean(sum, count int) int {
	return sum / count
}
