package main

type entry struct {
	key, value int
}

// What a get finds. If ok is false, the key is not in the map.
type found struct {
	value int
	ok    bool
}

// A put, or a get if it is false. The answer comes on reply.
type request struct {
	put   bool
	entry entry
	reply chan<- found
}

func main() {
	table := make(chan request)
	reply := make(chan found)
	go keep(table)
	for i := 1; i <= 5; i++ {
		put(table, reply, i, i*i*i)
	}
	put(table, reply, 3, 33)
	for i := 3; i <= 6; i++ {
		it := get(table, reply, i)
		println(i, it.value, it.ok)
	}
}

func put(table chan<- request, reply chan found, key, value int) {
	table <- request{true, entry{key, value}, reply}
	<-reply
}

func get(table chan<- request, reply chan found, key int) found {
	table <- request{false, entry{key, 0}, reply}
	return <-reply
}

// Keeps the entries in a buffered channel, and goes round it once for each request.
func keep(table <-chan request) {
	entries := make(chan entry, 1000)
	for it := range table {
		answer := found{}
		for i := len(entries); i > 0; i-- {
			old := <-entries
			if old.key == it.entry.key {
				answer = found{old.value, true}
				if it.put {
					continue
				}
			}
			entries <- old
		}
		if it.put {
			entries <- it.entry
		}
		it.reply <- answer
	}
}
