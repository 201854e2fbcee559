package foo

func main() {
}
