// Goroutines in the place of tasks: hops MEMBERS HOPS, yields TIMES, starts TASKS, waits TASKS.
package main

import (
	"fmt"
	"os"
	"runtime"
	"strconv"
)

type token struct{ hops int }

func member(in, next chan *token, done chan bool) {
	for {
		it := <-in
		goesOn := it.hops > 0
		it.hops--
		next <- it
		if !goesOn {
			break
		}
	}
	done <- true
}

func hops(members, count int) {
	done := make(chan bool, members)
	first := make(chan *token, 1)
	in := first
	for i := 1; i < members; i++ {
		next := make(chan *token, 1)
		go member(in, next, done)
		in = next
	}
	go member(in, first, done)
	first <- &token{count}
	for i := 0; i < members; i++ {
		<-done
	}
}

func yields(times int) {
	for i := 0; i < times; i++ {
		runtime.Gosched()
	}
}

func starts(tasks int) {
	out := make(chan *token, tasks)
	for i := 0; i < tasks; i++ {
		go func(number int) { out <- &token{number} }(i)
	}
	for i := 0; i < tasks; i++ {
		<-out
	}
}

func waits(tasks int) {
	box := make(chan *token, tasks)
	done := make(chan bool, tasks)
	for i := 0; i < tasks; i++ {
		go func() { <-box; done <- true }()
	}
	runtime.Gosched()
	for i := 0; i < tasks; i++ {
		box <- &token{i}
	}
	for i := 0; i < tasks; i++ {
		<-done
	}
}

func main() {
	count := func(at int) int { n, _ := strconv.Atoi(os.Args[at]); return n }
	switch os.Args[1] {
	case "hops":
		hops(count(2), count(3))
	case "yields":
		yields(count(2))
	case "starts":
		starts(count(2))
	case "waits":
		waits(count(2))
	default:
		fmt.Println("hops, yields, starts or waits")
	}
}
