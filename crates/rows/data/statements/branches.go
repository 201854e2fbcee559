package main

func main() {
	n := 0
	for {
		n++
		if n < 3 || n == 4 {
			continue
		} else if n > 5 {
			break
		}
		println(n)
	}
	return
	println(0)
}
