// Verifies and runs a program from Go, and the function whose object and name are the words, if there are words.
// CGO_CFLAGS and CGO_LDFLAGS say where the library is.
package main

// #include <byzlab_sandbox.h>
// #include <stdlib.h>
// #cgo LDFLAGS: -lbyzlab
import "C"

import (
	"errors"
	"fmt"
	"os"
	"unsafe"
)

// Run verifies a program and runs it once, with a board of zeros.
func Run(program []byte, context []byte) (uint64, error) {
	var fault C.struct_byzlab_fault
	var outcome C.struct_byzlab_outcome
	var board [C.BYZLAB_BOARD_WORDS]C.uint64_t
	if len(program) == 0 || len(context) != C.BYZLAB_CONTEXT_BYTES {
		return 0, errors.New("no program, or a context of another length")
	}
	status := C.byzlab_run((*C.uint8_t)(&program[0]), C.size_t(len(program)), (*C.uint8_t)(&context[0]),
		C.size_t(len(context)), &board[0], &fault, &outcome)
	switch status {
	case C.BYZLAB_DONE:
		return uint64(outcome.r0), nil
	case C.BYZLAB_MEMORY:
		return 0, errors.New("out of memory")
	}
	return 0, fmt.Errorf("status %d number %d unit %d", status, fault.number, fault.unit)
}

// Program returns the bytecode of a function of an ELF object, or of its only global function if the name is empty.
func Program(object []byte, entry string) ([]byte, error) {
	var fault C.struct_byzlab_fault
	var needed C.size_t
	program := make([]byte, C.BYZLAB_MOST_BYTES)
	if len(object) == 0 {
		return nil, errors.New("no object")
	}
	name := C.CString(entry)
	defer C.free(unsafe.Pointer(name))
	status := C.byzlab_object((*C.uint8_t)(&object[0]), C.size_t(len(object)), name, C.size_t(len(entry)),
		(*C.uint8_t)(&program[0]), C.size_t(len(program)), &needed, &fault)
	if status != C.BYZLAB_DONE {
		return nil, fmt.Errorf("status %d number %d unit %d", status, fault.number, fault.unit)
	}
	return program[:needed], nil
}

func main() {
	context := make([]byte, C.BYZLAB_CONTEXT_BYTES)
	r0, err := Run([]byte{0xb7, 0, 0, 0, 42, 0, 0, 0, 0x95, 0, 0, 0, 0, 0, 0, 0}, context)
	if err != nil {
		fmt.Println(err)
		os.Exit(1)
	}
	fmt.Println("r0", r0)
	_, err = Run([]byte{0x95, 0, 0, 0, 0, 0, 0, 0}, context)
	fmt.Println(err)
	if len(os.Args) > 2 {
		object, _ := os.ReadFile(os.Args[1])
		program, err := Program(object, os.Args[2])
		if err == nil {
			r0, err = Run(program, context)
		}
		fmt.Println(os.Args[2], r0, err)
	}
}
