package main
// passes, in any order

func main() {
	done := make(chan bool)
	go say(1, done)
	go say(2, done)
	go say(2, done)
	<-done
	<-done
	<-done
}

func say(n int, done chan bool) {
	println(n)
	done <- true
}

// Unordered output:
// 2
// 1
// 2
