// Show prints what `p25 show` prints of standard input, by cgo:
//
//	go build -o show bindings/languages/show.go
//
// If the library is installed, `#cgo pkg-config: p25` replaces the two lines of #cgo.
package main

/*
#cgo CFLAGS: -I${SRCDIR}/..
#cgo LDFLAGS: ${SRCDIR}/../../out/libp25.a
#include "p25.h"
*/
import "C"

import (
	"bufio"
	"fmt"
	"io"
	"log"
	"os"
)

// show writes a line for each item of a recording.
func show(octets []byte, output io.Writer) error {
	var item C.p25_item
	var text [C.P25_TEXT_ROOM]C.char
	var first *C.uint8_t // NULL is allowed if there are no octets
	if len(octets) > 0 {
		first = (*C.uint8_t)(&octets[0])
	}
	for from := C.uint64_t(0); C.p25_next_item(first, C.size_t(len(octets)), 0, from, true, &item, &text[0], C.P25_TEXT_ROOM) == C.P25_ITEM; {
		if _, err := fmt.Fprintln(output, C.GoStringN(&text[0], C.int(item.text_length))); err != nil {
			return err
		}
		from = item.place + C.uint64_t(item.bits)
	}
	return nil
}

func main() {
	octets, err := io.ReadAll(os.Stdin)
	if err != nil {
		log.Fatal(err)
	}
	output := bufio.NewWriter(os.Stdout)
	if err := show(octets, output); err != nil {
		log.Fatal(err)
	}
	if err := output.Flush(); err != nil {
		log.Fatal(err)
	}
}
