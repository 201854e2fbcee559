package main

// The forks that a philosopher takes, in this order, and the channel for each meal. A fork that lies on the table is a
// message in its channel.
type seat struct {
	first, second chan bool
	meals         chan<- int
}

// Five philosophers eat three times each. All but the last take the fork on their left first: so they never hold one fork
// each and wait for the other.
func main() {
	meals := make(chan int)
	most := fork()
	left := most
	for i := 1; i < 5; i++ {
		right := fork()
		go dine(i, seat{left, right, meals})
		left = right
	}
	go dine(5, seat{most, left, meals})
	eaten, sum := 0, 0
	for eaten < 15 {
		sum += <-meals
		eaten++
	}
	println(eaten, "meals")
	println("the numbers of those who ate make", sum)
}

func fork() chan bool {
	made := make(chan bool, 1)
	made <- true
	return made
}

func dine(number int, at seat) {
	for i := 0; i < 3; i++ {
		<-at.first
		<-at.second
		at.meals <- number
		at.second <- true
		at.first <- true
	}
}
