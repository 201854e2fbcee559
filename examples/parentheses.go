package main

func main() {
	println((3), ((3)), (((3))))
	println(-(1 + 2), -(-(-3)), - - -3)
	println((1 + 2) - (3 + 4) - (5 - (6 - (7 - 8))))
	println(8-(4-(2-1)), ((8-4)-2)-1)
}
