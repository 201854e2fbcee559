package main

func f() {
	println()
}

func g(n int) int {
	return n
}

func main() {
	println()
	x := 1
	println()
	var y, z int
	println()
	x, y = 2, 3
	println()
	x += y
	x++
	println()
	if x > 1 {
		{
		}
	}
	println()
	f()
	println()
	y = g(1)
	println()
	for i := 0; i < 2; i++ {
	}
	println()
	for {
		break
	}
	println()
	for {
		if x > 0 {
			x = 0
			continue
		}
		break
	}
	println()
	_ = z
	println()
}
