// A small cache of texts from Go, by cgo: two goroutines get, and one puts. It is small_cache.c in Go. Whoever gets
// takes no lock. A put takes the mutex of the key's part, and gives it back, within one call of bump_cache_locks.h: so
// it may be made by any goroutine. It prints how many gets found a text, and how many of these weren't the key's.
package main

/*
#define _POSIX_C_SOURCE 200809L
#include "bump_cache_locks.h"
#include <stdlib.h>
*/
import "C"

import (
	"fmt"
	"os"
	"runtime"
	"sync"
	"unsafe"
)

const (
	readers, keys, gets    = 2, 2000, 50000
	mostOfKey, mostOfValue = 16, 64
)

// No time passes here, and nothing expires.
const now = 1

// The handles lie in memory of C, which Go doesn't move.
var locks = (*C.bump_cache_locks)(C.calloc(1, C.sizeof_bump_cache_locks))

func bytesOf(text []byte) unsafe.Pointer { return unsafe.Pointer(&text[0]) }

func keyOf(number int) []byte { return []byte(fmt.Sprintf("user:%d", number)) }

func textOf(key []byte) []byte { return []byte("the text of " + string(key)) }

func putAll() {
	for i := 0; i < gets; i++ {
		key := keyOf(i * 7919 % keys)
		text := textOf(key)
		told := C.bump_cache_locks_put(locks, bytesOf(key), C.size_t(len(key)), bytesOf(text), C.size_t(len(text)), 0, 0, now)
		if told.answer == C.BUMP_CACHE_PUT_NO_ROOM { // what it has is out of date
			C.bump_cache_locks_remove(locks, bytesOf(key), C.size_t(len(key)), now)
		}
	}
	C.bump_cache_locks_tend(locks, now)
}

// One thread has a reader, so the goroutine keeps its own.
func getAll(reader *C.bump_cache_reader, wrong *int) {
	runtime.LockOSThread()
	defer runtime.UnlockOSThread()
	text := make([]byte, mostOfValue)
	for i := 0; i < gets; i++ {
		key := keyOf(i * 104729 % keys)
		got := C.bump_cache_get(reader, bytesOf(key), C.size_t(len(key)), bytesOf(text), mostOfValue, now)
		if got.answer == C.BUMP_CACHE_GET_FOUND && string(text[:got.length]) != string(textOf(key)) {
			*wrong++
		}
	}
}

func main() {
	config := C.bump_cache_defaults(1500, readers, mostOfKey, mostOfValue)
	config.parts = 4
	cache := C.bump_cache{}
	if C.bump_cache_open(&cache, &config) != C.BUMP_CACHE_OPEN_DONE || !C.bump_cache_locks_init(locks, &cache, &config) {
		os.Exit(1)
	}
	var threads sync.WaitGroup
	var taken [readers]*C.bump_cache_reader
	var wrong [readers]int
	for i := range taken {
		taken[i] = (*C.bump_cache_reader)(C.calloc(1, C.sizeof_bump_cache_reader))
		C.bump_cache_take_reader(&cache, C.uint32_t(i), taken[i])
	}
	C.bump_cache_close(cache) // all is taken out
	for i, reader := range taken {
		threads.Add(1)
		go func(reader *C.bump_cache_reader, wrong *int) { getAll(reader, wrong); threads.Done() }(reader, &wrong[i])
	}
	threads.Add(1)
	go func() { putAll(); threads.Done() }()
	threads.Wait()
	hits := uint64(0)
	for _, reader := range taken {
		hits += uint64(C.bump_cache_reader_counts(reader).hits)
		C.bump_cache_reader_free(*reader)
	}
	C.bump_cache_locks_free(locks)
	fmt.Printf("%d gets found a text, %d a wrong one\n", hits, wrong[0]+wrong[1])
	if wrong[0]+wrong[1] != 0 {
		os.Exit(1)
	}
}
