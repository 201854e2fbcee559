package main

func main() {
	foreach x in c {
	}
}
