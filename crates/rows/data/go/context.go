package main

// A goroutine that gets a context may be cancelled: cancel closes done. It confirms on stopped.
type context struct {
	done, stopped chan bool
}

func main() {
	done := make(chan bool)
	stopped := make(chan bool)
	ctx := context{done, stopped}
	squares := make(chan int)
	go produce(ctx, squares)
	for square := range squares {
		println(square)
		if square > 20 {
			break
		}
	}
	cancel(ctx)
	println("the producer has stopped")
}

func cancel(ctx context) {
	close(ctx.done)
	<-ctx.stopped
}

func produce(ctx context, squares chan<- int) {
	for i := 1; ; i++ {
		select {
		case squares <- i * i:
		case <-ctx.done:
			close(ctx.stopped)
			return
		}
	}
}
