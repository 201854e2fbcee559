package main
// passes: white space around the output doesn't count

func main() {
	println()
	println(1)
	println()
	println(2)
	println()
}

/*
Output:

1

2
*/
