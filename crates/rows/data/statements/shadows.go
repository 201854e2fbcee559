package main

func main() {
	a := 1
	{
		a := a + 1
		println(a)
	}
	if b := a; b != 1 {
		println("no")
	} else {
		println("yes", b)
	}
	_ = a
	a, _ = a+1, a
}
