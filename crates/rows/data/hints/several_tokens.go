package main

func first() {
	x := 'a'
	y := 'b'
	println(x, y)
}

func second() int {
	return 0777
}

func third() {
	println(`one
func
two`)
}

func fourth() {
	println("one
}

func main() {
	defer first()
}
