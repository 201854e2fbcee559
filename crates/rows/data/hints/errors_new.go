package main

func main() {
	return errors.New("x")
}
