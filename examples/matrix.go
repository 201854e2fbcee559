package main

type row struct {
	x, y, z int
}

type matrix struct {
	first, second, third row
}

// A row of the left matrix, the whole right one, and the channel for the row of the product.
type task struct {
	left   row
	right  matrix
	answer chan<- row
}

// The product of two matrices, of which each row is computed by a worker of its own.
func main() {
	m := matrix{row{1, 1, 0}, row{0, 1, 1}, row{1, 0, 1}}
	power := matrix{row{1, 0, 0}, row{0, 1, 0}, row{0, 0, 1}}
	tasks := make(chan task)
	for i := 0; i < 3; i++ {
		go multiply(tasks)
	}
	for i := 1; i <= 10; i++ {
		power = product(power, m, tasks)
		println("to the power of", i)
		show(power.first)
		show(power.second)
		show(power.third)
	}
}

func show(it row) {
	println("\t", it.x, it.y, it.z)
}

func product(left, right matrix, tasks chan<- task) matrix {
	first := make(chan row)
	second := make(chan row)
	third := make(chan row)
	tasks <- task{left.first, right, first}
	tasks <- task{left.second, right, second}
	tasks <- task{left.third, right, third}
	return matrix{<-first, <-second, <-third}
}

func multiply(tasks <-chan task) {
	for it := range tasks {
		a, b, c := it.right.first, it.right.second, it.right.third
		it.answer <- row{
			dot(it.left, row{a.x, b.x, c.x}),
			dot(it.left, row{a.y, b.y, c.y}),
			dot(it.left, row{a.z, b.z, c.z}),
		}
	}
}

func dot(a, b row) int {
	return a.x*b.x + a.y*b.y + a.z*b.z
}
