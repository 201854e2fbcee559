package main

func main() {
	t := time.Now()
}
