package main

func main() {
	go func() {
		println(1)
	}()
}
