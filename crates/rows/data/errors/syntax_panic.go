package main

func main() {
	share(0)
}

func share(n int) {
	if n == 0 {
		panic("nobody is there")
	}
	println(12 / n)
}
