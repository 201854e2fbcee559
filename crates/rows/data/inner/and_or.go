package main

func main() {
	b := make(chan bool, 4)
	b <- true
	b <- false
	b <- true
	b <- false
	println(<-b || t(), <-b && t(), <-b && t(), <-b || t(), len(b))
}

func t() bool {
	println("t")
	return true
}
