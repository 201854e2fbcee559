package main

func main() {
	n := 3
	for i := range n {
		println(i)
	}
}
