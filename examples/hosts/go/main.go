// A host in Go over the static library, by cgo.
//
// usage: host FOLDER
package main

// #include "vino_host.h"
import "C"

import (
	"encoding/hex"
	"fmt"
	"log"
	"os"
	"path/filepath"
	"strings"
	"sync"
)

// Sandbox is a loaded plug-in with its segment and its call. Use it in one goroutine at a time.
type Sandbox struct {
	plugin  []C.uint8_t
	call    C.vino_call
	segment [C.VINO_SEGMENT]C.uint8_t
}

// Refusal says why an image isn't loaded: 1 to 13 are the codes L1 to L13, 14 is want of memory.
type Refusal uint32

func (r Refusal) Error() string {
	var text [64]C.char
	C.vino_refusal_sentence(C.uint32_t(r), &text[0])
	return C.GoString(&text[0])
}

// Load checks the seal of an image under the keys, and verifies its code.
func Load(keys *C.vino_keys, image []byte) (*Sandbox, error) {
	made := new(Sandbox)
	var place C.uint32_t
	bytes := append(image, 0) // a pointer is never null, also where the image is empty
	made.plugin = make([]C.uint8_t, len(bytes)) // an image never needs more bytes than it has
	code := C.vino_load(keys, (*C.uint8_t)(&bytes[0]), C.size_t(len(image)), &made.plugin[0], C.size_t(len(made.plugin)), &place)
	if code != C.VINO_LOADED {
		return nil, Refusal(code)
	}
	return made, nil
}

// Check tells whether the plug-in is still what was loaded.
func (s *Sandbox) Check() bool {
	return C.vino_check(&s.plugin[0], C.size_t(len(s.plugin))) == C.VINO_LOADED
}

// Call calls the plug-in over a table of one word or more. The host answers ids 2 to 15: with a word, or
// false to refuse the id.
func (s *Sandbox) Call(request C.vino_request, table []C.vino_word, host func(id uint32) (uint32, bool)) C.vino_answer {
	var answer C.vino_answer
	var bytes [1]C.uint8_t
	length := C.size_t(len(table))
	C.vino_begin(&s.plugin[0], C.size_t(len(s.plugin)), &s.call, &request, &bytes[0], 0, &s.segment[0], &table[0], length, &answer)
	for answer.kind == C.VINO_WAITING {
		word, ok := host(uint32(answer.detail))
		how := C.uint32_t(0)
		if !ok {
			how = C.VINO_NOT_CALLABLE
		}
		C.vino_resume(&s.plugin[0], C.size_t(len(s.plugin)), &s.call, how, C.uint32_t(word), &s.segment[0], &table[0], length, &answer)
	}
	return answer
}

func image(folder, name string) []byte {
	text, err := os.ReadFile(filepath.Join(folder, name+".hex"))
	if err != nil {
		log.Fatal(err)
	}
	bytes, err := hex.DecodeString(strings.TrimSpace(string(text)))
	if err != nil {
		log.Fatal(err)
	}
	return bytes
}

// power calls the plug-in that raises a number to the fifth, in a sandbox of its own.
func power(code []byte, number uint32) uint32 {
	plugin, err := Load(&C.vino_keys{count: 1}, code)
	if err != nil {
		log.Fatal(err)
	}
	request := C.vino_request{number: 1, limit: 1000, fresh: 1, r0: C.uint32_t(number), r1: 5}
	answer := plugin.Call(request, make([]C.vino_word, 1), func(uint32) (uint32, bool) { return 0, false })
	return uint32(answer.r0)
}

func main() {
	folder := os.Args[1]
	keys := C.vino_keys{count: 1}
	table := []C.vino_word{{value: 5}, {value: 5}, {value: 5}}
	for _, name := range []string{"count", "bad-divides", "ask"} {
		plugin, err := Load(&keys, image(folder, name))
		if err != nil {
			log.Fatal(err)
		}
		request := C.vino_request{number: 1, limit: 1000, fresh: 1, r0: 1, r1: 2, r2: 3, r3: 4}
		a := plugin.Call(request, table, func(id uint32) (uint32, bool) { return 9, id == 2 })
		fmt.Println(name, "kind", a.kind, "steps", a.steps, "r0", a.r0, a.r1, a.r2, a.r3,
			"words", table[0].value, table[1].value, table[2].value)
	}
	changed := image(folder, "count")
	changed[len(changed)-1] ^= 1
	if _, err := Load(&keys, changed); err != nil {
		fmt.Println("changed image refused:", err)
	}
	stray, err := Load(&keys, image(folder, "count"))
	if err != nil {
		log.Fatal(err)
	}
	loaded := stray.Check()
	stray.plugin[50] ^= 1
	fmt.Println("as loaded:", loaded, "after a stray write:", stray.Check())
	// Four goroutines at once: the library has no state.
	var powers [4]uint32
	var all sync.WaitGroup
	code := image(folder, "power")
	for number := range powers {
		all.Add(1)
		go func(number int) {
			defer all.Done()
			powers[number] = power(append([]byte(nil), code...), uint32(number))
		}(number)
	}
	all.Wait()
	fmt.Println(powers)
}
