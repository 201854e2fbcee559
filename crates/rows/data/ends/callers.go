package main

func main() {
	println("start")
	x := middle(6)
	println(x)
}

func middle(n int) int {
	for n > 3 {
		n = n - 1
		if n == 4 {
			y := inner(n, 0)
			return y
		}
	}
	return 0
}

func inner(a, b int) int {
	if a > 3 {
		print("a")
	} else if a > 2 {
		print("b")
	} else {
		print("c")
	}
	q := a / b
	return q
}
