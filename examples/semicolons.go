package main; func main() {
	;
	println(1 + 2, (3), -4,); ; println(5)
	;;; println(
		6,
		7 +
			8,
	)
	println(9) }
