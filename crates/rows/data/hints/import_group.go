package main

import (
	"fmt"
	"sync"
)

func main() {
}
