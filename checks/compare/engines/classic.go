// The machine of golang.org/x/net/bpf, asked through standard input and output; go.c is the other side.
//
// Asked: 1, a length, a filter of so many bytes and 4,096 bytes for it to read; or 2 and how often the filter is to be
// run. Answered: whether the filter is accepted, or what its last run gave; and the nanoseconds of a processor that all
// loads and runs have taken so far.
package main

import (
	"bufio"
	"encoding/binary"
	"io"
	"os"
	"syscall"
	"unsafe"

	"golang.org/x/net/bpf"
)

const context = 4096

// processor is the time that this process has taken, its collector of garbage with it.
func processor() uint64 {
	var t syscall.Timespec
	syscall.Syscall(syscall.SYS_CLOCK_GETTIME, 2, uintptr(unsafe.Pointer(&t)), 0)
	return uint64(t.Nano())
}

func load(code []byte) *bpf.VM {
	filter := make([]bpf.Instruction, len(code)/8)
	for i := range filter {
		unit := code[8*i:]
		raw := bpf.RawInstruction{Op: binary.LittleEndian.Uint16(unit), Jt: unit[2], Jf: unit[3]}
		raw.K = binary.LittleEndian.Uint32(unit[4:])
		filter[i] = raw.Disassemble()
	}
	vm, err := bpf.NewVM(filter)
	if err != nil {
		return nil
	}
	return vm
}

func run(vm *bpf.VM, memory []byte, times uint32) uint64 {
	var last int
	for ; times > 0; times-- {
		last, _ = vm.Run(memory)
	}
	return uint64(uint32(last))
}

func main() {
	asked := bufio.NewReader(os.Stdin)
	var vm *bpf.VM
	var spent uint64
	memory := make([]byte, context)
	for {
		var head [2]uint32
		if binary.Read(asked, binary.LittleEndian, &head) != nil {
			return
		}
		var answer uint64
		if head[0] == 1 {
			code := make([]byte, head[1])
			io.ReadFull(asked, code)
			io.ReadFull(asked, memory)
			begun := processor()
			vm = load(code)
			spent += processor() - begun
			if vm != nil {
				answer = 1
			}
		} else {
			begun := processor()
			answer = run(vm, memory, head[1])
			spent += processor() - begun
		}
		binary.Write(os.Stdout, binary.LittleEndian, [2]uint64{answer, spent})
	}
}
