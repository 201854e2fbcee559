package main

func main() {
	x := math.MaxInt64
	println(x)
}
