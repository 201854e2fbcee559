package main

func main() {
	x := 1
	x := 2
	y := true + 1
}

func g() int {
	println(1)
}

func h() {
	println(undefined)
}
