package main

// A select over 64 channels, at each of which 20 goroutines sleep.
func main() {
	c0 := make(chan int)
	crowd(c0)
	c1 := make(chan int)
	crowd(c1)
	c2 := make(chan int)
	crowd(c2)
	c3 := make(chan int)
	crowd(c3)
	c4 := make(chan int)
	crowd(c4)
	c5 := make(chan int)
	crowd(c5)
	c6 := make(chan int)
	crowd(c6)
	c7 := make(chan int)
	crowd(c7)
	c8 := make(chan int)
	crowd(c8)
	c9 := make(chan int)
	crowd(c9)
	c10 := make(chan int)
	crowd(c10)
	c11 := make(chan int)
	crowd(c11)
	c12 := make(chan int)
	crowd(c12)
	c13 := make(chan int)
	crowd(c13)
	c14 := make(chan int)
	crowd(c14)
	c15 := make(chan int)
	crowd(c15)
	c16 := make(chan int)
	crowd(c16)
	c17 := make(chan int)
	crowd(c17)
	c18 := make(chan int)
	crowd(c18)
	c19 := make(chan int)
	crowd(c19)
	c20 := make(chan int)
	crowd(c20)
	c21 := make(chan int)
	crowd(c21)
	c22 := make(chan int)
	crowd(c22)
	c23 := make(chan int)
	crowd(c23)
	c24 := make(chan int)
	crowd(c24)
	c25 := make(chan int)
	crowd(c25)
	c26 := make(chan int)
	crowd(c26)
	c27 := make(chan int)
	crowd(c27)
	c28 := make(chan int)
	crowd(c28)
	c29 := make(chan int)
	crowd(c29)
	c30 := make(chan int)
	crowd(c30)
	c31 := make(chan int)
	crowd(c31)
	c32 := make(chan int)
	crowd(c32)
	c33 := make(chan int)
	crowd(c33)
	c34 := make(chan int)
	crowd(c34)
	c35 := make(chan int)
	crowd(c35)
	c36 := make(chan int)
	crowd(c36)
	c37 := make(chan int)
	crowd(c37)
	c38 := make(chan int)
	crowd(c38)
	c39 := make(chan int)
	crowd(c39)
	c40 := make(chan int)
	crowd(c40)
	c41 := make(chan int)
	crowd(c41)
	c42 := make(chan int)
	crowd(c42)
	c43 := make(chan int)
	crowd(c43)
	c44 := make(chan int)
	crowd(c44)
	c45 := make(chan int)
	crowd(c45)
	c46 := make(chan int)
	crowd(c46)
	c47 := make(chan int)
	crowd(c47)
	c48 := make(chan int)
	crowd(c48)
	c49 := make(chan int)
	crowd(c49)
	c50 := make(chan int)
	crowd(c50)
	c51 := make(chan int)
	crowd(c51)
	c52 := make(chan int)
	crowd(c52)
	c53 := make(chan int)
	crowd(c53)
	c54 := make(chan int)
	crowd(c54)
	c55 := make(chan int)
	crowd(c55)
	c56 := make(chan int)
	crowd(c56)
	c57 := make(chan int)
	crowd(c57)
	c58 := make(chan int)
	crowd(c58)
	c59 := make(chan int)
	crowd(c59)
	c60 := make(chan int)
	crowd(c60)
	c61 := make(chan int)
	crowd(c61)
	c62 := make(chan int)
	crowd(c62)
	c63 := make(chan int)
	crowd(c63)
	sum := 0
	for i := 0; i < 1280; i++ {
		select {
		case n := <-c0:
			sum += n * 1
		case n := <-c1:
			sum += n * 2
		case n := <-c2:
			sum += n * 3
		case n := <-c3:
			sum += n * 4
		case n := <-c4:
			sum += n * 5
		case n := <-c5:
			sum += n * 6
		case n := <-c6:
			sum += n * 7
		case n := <-c7:
			sum += n * 8
		case n := <-c8:
			sum += n * 9
		case n := <-c9:
			sum += n * 10
		case n := <-c10:
			sum += n * 11
		case n := <-c11:
			sum += n * 12
		case n := <-c12:
			sum += n * 13
		case n := <-c13:
			sum += n * 14
		case n := <-c14:
			sum += n * 15
		case n := <-c15:
			sum += n * 16
		case n := <-c16:
			sum += n * 17
		case n := <-c17:
			sum += n * 18
		case n := <-c18:
			sum += n * 19
		case n := <-c19:
			sum += n * 20
		case n := <-c20:
			sum += n * 21
		case n := <-c21:
			sum += n * 22
		case n := <-c22:
			sum += n * 23
		case n := <-c23:
			sum += n * 24
		case n := <-c24:
			sum += n * 25
		case n := <-c25:
			sum += n * 26
		case n := <-c26:
			sum += n * 27
		case n := <-c27:
			sum += n * 28
		case n := <-c28:
			sum += n * 29
		case n := <-c29:
			sum += n * 30
		case n := <-c30:
			sum += n * 31
		case n := <-c31:
			sum += n * 32
		case n := <-c32:
			sum += n * 33
		case n := <-c33:
			sum += n * 34
		case n := <-c34:
			sum += n * 35
		case n := <-c35:
			sum += n * 36
		case n := <-c36:
			sum += n * 37
		case n := <-c37:
			sum += n * 38
		case n := <-c38:
			sum += n * 39
		case n := <-c39:
			sum += n * 40
		case n := <-c40:
			sum += n * 41
		case n := <-c41:
			sum += n * 42
		case n := <-c42:
			sum += n * 43
		case n := <-c43:
			sum += n * 44
		case n := <-c44:
			sum += n * 45
		case n := <-c45:
			sum += n * 46
		case n := <-c46:
			sum += n * 47
		case n := <-c47:
			sum += n * 48
		case n := <-c48:
			sum += n * 49
		case n := <-c49:
			sum += n * 50
		case n := <-c50:
			sum += n * 51
		case n := <-c51:
			sum += n * 52
		case n := <-c52:
			sum += n * 53
		case n := <-c53:
			sum += n * 54
		case n := <-c54:
			sum += n * 55
		case n := <-c55:
			sum += n * 56
		case n := <-c56:
			sum += n * 57
		case n := <-c57:
			sum += n * 58
		case n := <-c58:
			sum += n * 59
		case n := <-c59:
			sum += n * 60
		case n := <-c60:
			sum += n * 61
		case n := <-c61:
			sum += n * 62
		case n := <-c62:
			sum += n * 63
		case n := <-c63:
			sum += n * 64
		}
	}
	println(sum)
}

func crowd(c chan int) {
	for i := 0; i < 20; i++ {
		go send(c, i)
	}
}

func send(c chan int, i int) {
	c <- i
}
