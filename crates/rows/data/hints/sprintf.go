package main

func main() {
	s := fmt.Sprintf("x")
}
