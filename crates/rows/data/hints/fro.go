package main

func main() {
	fro i := 0; i < 3; i++ {
	}
}
