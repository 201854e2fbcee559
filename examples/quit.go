package main

func main() {
	quit := make(chan bool)
	done := make(chan bool)
	go search(30, 7, quit, done)
	go search(50, 9, quit, done)
	<-done
	<-done
	println("found")
}

// Looks for a multiple. The goroutine that finds one first stops the other.
func search(from, divisor int, quit, done chan bool) {
	for n := from; n%divisor != 0; n++ {
		select {
		case <-quit:
			done <- true
			return
		default:
		}
	}
	select {
	case <-quit:
	default:
		close(quit)
	}
	done <- true
}
