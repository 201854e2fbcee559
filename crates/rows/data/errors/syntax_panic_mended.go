package main

func main() {
	share(0)
}

func share(n int) {
	if n == 0 {
		println("nobody is there")
		return
	}
	println(12 / n)
}
