package main

func main() {
	for {
		braek
	}
}
