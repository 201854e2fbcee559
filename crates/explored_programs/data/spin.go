// A goroutine makes channels, and asks whether it has to stop.
// Bug: output
package main

func main() {
	stop := make(chan bool)
	go spin(stop)
	go start(stop)
	<-stop
	println("stopped")
}

func spin(stop chan bool) {
	for {
		c := make(chan int, 1)
		select {
		case stop <- true:
			return
		default:
		}
		println(cap(c))
	}
}

func start(stop chan bool) {
	stop <- true
}
