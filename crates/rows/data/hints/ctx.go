package main

func main() {
	ctx, cancel := context.WithCancel(ctx)
}
