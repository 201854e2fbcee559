package main

func main() {
	wg.Wait()
}
