package main

type state struct {
	n int
}

func add(s *state) {
	s.n++
}

func main() {
	s := state{0}
	add(&s)
}
