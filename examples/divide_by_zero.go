package main

// What is left of 100 is divided by 3, 2, 1, 0.
func main() {
	rest := 100
	for i := 3; ; i-- {
		rest /= i
		println("divided by", i, "there is", rest)
	}
}
