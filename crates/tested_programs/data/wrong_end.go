package main
// fails by its end and its output

func main() {
	println(1)
	wait := make(chan int)
	println(<-wait)
}

// Output:
// 1
// 2
