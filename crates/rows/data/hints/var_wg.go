package main

func main() {
	var wg sync.WaitGroup
	wg.Wait()
}
