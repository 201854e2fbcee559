package main

func main() {
}

func f0(x t) {
}

func f1(x t) {
}

func f2(x t) {
}

func f3(x t) {
}

func f4(x t) {
}

func f5(x t) {
}

func f6(x t) {
}

func f7(x t) {
}

func f8(x t) {
}

func f9(x t) {
}

func f10(x t) {
}

func f11(x t) {
}

func f12(x t) {
}
