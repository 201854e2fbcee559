package main

func first() {
const n = 3
println(n)
}

func second() {
f := func() {
println(2)
}
f()
func() {
println(3)
}()
type pair struct {
first int
}
}

func main() {
first()
}
