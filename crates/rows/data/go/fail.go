package main

func main() {
	half := halved(10)
	println("half of 10 is", half)
	half = halved(7)
	println("half of 7 is", half)
}

func halved(number int) int {
	if number%2 != 0 {
		println("halved: odd number", number)
		fail()
	}
	return number / 2
}

// Ends the program with status 2: the close of a nil channel panics.
func fail() {
	var never chan bool
	close(never)
}
