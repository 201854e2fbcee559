package main

func main() {
	c := make(chan int, 4)
	c <- 20
	c <- 1
	c <- 7
	println(1<<len(c), -9223372036854775808 == <-c, nil == give(), give() != nil, 1<<62>>len(c))
}

func give() chan int {
	return make(chan int)
}
