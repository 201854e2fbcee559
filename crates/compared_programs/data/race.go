package main

func main() {
	d := make(chan bool)
	go a(d)
	go b(d)
	<-d
	<-d
}

func a(d chan bool) {
	x := 1
	println(x)
	d <- true
}

func b(d chan bool) {
	println(2)
	d <- true
}
