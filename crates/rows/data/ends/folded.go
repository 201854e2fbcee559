package main

func main() {
	even(6)
}

func even(n int) {
	if n == 0 {
		for i := 0; i < 3; i++ {
			down(40, i)
		}
		return
	}
	odd(n - 1)
}

func odd(n int) {
	even(n - 1)
}

func down(n, i int) {
	if n == 0 {
		println(1 / (i - 1))
		return
	}
	down(n-1, i)
}
