package main

func work(n int, wg *sync.WaitGroup) {
	wg.Done()
}

func main() {
}
