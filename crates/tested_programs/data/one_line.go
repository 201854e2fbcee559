package main
// passes: the output stands on the line of the word, in another case

func main() {
	println(3)
}

// output: 3
