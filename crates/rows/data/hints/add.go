package main

func main() {
	wg.Add(1)
}
