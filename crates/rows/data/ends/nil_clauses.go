package main

type pair struct {
	left, right chan int
}

func main() {
	var p pair
	p.left = make(chan int)
	select {
	case x := <-p.left:
		println(x)
	case p.right <- 1:
		println("sent")
	}
}
