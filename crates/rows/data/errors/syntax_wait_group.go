package main

func main() {
	var wg sync.WaitGroup
	wg.Add(1)
	go work(1)
	wg.Wait()
}

func work(n int) {
	println(n)
}
