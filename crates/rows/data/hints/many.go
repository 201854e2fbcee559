package main

func main() {
}

func f0() int {
}

func f1() int {
}

func f2() int {
}

func f3() int {
}

func f4() int {
}

func f5() int {
}

func f6() int {
}

func f7() int {
}

func f8() int {
}

func f9() int {
}

func f10() int {
}

func f11() int {
}

func f12() int {
}
