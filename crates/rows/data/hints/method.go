package main

func main() {
	x := 1
}

func (p point) sum() int {
	return 1
}
