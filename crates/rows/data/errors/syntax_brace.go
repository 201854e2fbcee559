package main

func main() {
	for i := 0; i < 2; i++ {
		if i > 0 {
			println(i)
	}
}

func show() {
	println(1)
}
