package main
// passes: only its end is compared, also in other orders

func main() {
	done := make(chan bool)
	go say(1, done)
	go say(2, done)
	<-done
	<-done
}

func say(n int, done chan bool) {
	println(n)
	done <- true
}
