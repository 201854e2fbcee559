package main

func main() {
	table()
}

func table() {
	for i := 0; i < 3; i++ {
		for j := 0; j < 3; j++ {
			if i*j == 2 {
				return
			}
			println(i, j)
		}
	}
}
