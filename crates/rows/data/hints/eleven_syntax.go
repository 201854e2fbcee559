package main

func main() {
}

func f0() {
	defer main()
}

func f1() {
	defer main()
}

func f2() {
	defer main()
}

func f3() {
	defer main()
}

func f4() {
	defer main()
}

func f5() {
	defer main()
}

func f6() {
	defer main()
}

func f7() {
	defer main()
}

func f8() {
	defer main()
}

func f9() {
	defer main()
}

func f10() {
	defer main()
}
