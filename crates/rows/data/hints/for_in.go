package main

func main() {
	for x in c {
	}
}
