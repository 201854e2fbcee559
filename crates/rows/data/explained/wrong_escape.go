package main

func main() {
	println("50\% of \n")
}
