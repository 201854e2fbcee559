package main
// passes, but not in other orders

func main() {
	done := make(chan bool)
	go say(1, done)
	go say(2, done)
	<-done
	<-done
}

func say(n int, done chan bool) {
	println(n)
	done <- true
}

// Output:
// 1
// 2
