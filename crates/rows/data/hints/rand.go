package main

func main() {
	x := rand.Intn(10)
}
