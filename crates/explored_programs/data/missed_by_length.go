// 40 goroutines may be so late that the run which shows it would be too long.
// Bug: output, and no plan
package main

func main() {
	c := make(chan bool)
	for i := 0; i < 40; i++ {
		go wait(c)
	}
	for i := 0; i < 50000; i++ {
	}
	select {
	case c <- true:
		println("signalled")
	default:
		println("nobody")
	}
}

func wait(c chan bool) {
	<-c
}
