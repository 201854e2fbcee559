package main

func main() {
	for {
		c := make(chan int)
		if c == nil {
			return
		}
	}
}
