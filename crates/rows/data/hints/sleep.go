package main

func main() {
	time.Sleep(1)
}
