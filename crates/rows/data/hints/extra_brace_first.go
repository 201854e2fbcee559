package main

func first() {
	println(1)
	}
}

func second() {
	println(2)
}

func main() {
	first()
	second()
}
