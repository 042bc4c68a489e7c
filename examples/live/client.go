// Asks diltzekun-live what random calls give, makes each of them on this kernel too, and stops at the first difference.
// go run client.go path/to/diltzekun-live
package main

import (
	"bufio"
	"fmt"
	"io"
	"math/rand"
	"os"
	"os/exec"
	"strings"
	"syscall"
)

const (
	page, pages, calls = 4096, 16, 1000
	window             = 0x10000000 // nothing else may lie there
)

// A result as the oracle writes it.
func reply(fault syscall.Errno) string {
	switch fault {
	case 0:
		return "0"
	case syscall.ENOMEM:
		return "-1 ENOMEM"
	}
	return fmt.Sprintf("-1 %d", fault)
}

// Makes a call on this kernel, and gives its line and its result.
func call() (string, string) {
	at, size := uintptr(window+page*rand.Intn(pages)), uintptr(page*(1+rand.Intn(4)))
	switch rand.Intn(3) {
	case 0:
		flags := uintptr(syscall.MAP_PRIVATE | syscall.MAP_ANON | syscall.MAP_FIXED)
		place, _, _ := syscall.Syscall6(syscall.SYS_MMAP, at, size, syscall.PROT_READ, flags, ^uintptr(0), 0)
		return fmt.Sprintf("0 mmap %#x %d PROT_READ MAP_PRIVATE|MAP_ANONYMOUS|MAP_FIXED -1 0", at, size), fmt.Sprintf("%#x", place)
	case 1:
		_, _, fault := syscall.Syscall(syscall.SYS_MUNMAP, at, size, 0)
		return fmt.Sprintf("0 munmap %#x %d", at, size), reply(fault)
	}
	_, _, fault := syscall.Syscall(syscall.SYS_MPROTECT, at, size, syscall.PROT_NONE)
	return fmt.Sprintf("0 mprotect %#x %d PROT_NONE", at, size), reply(fault)
}

func main() {
	if len(os.Args) != 2 {
		fmt.Fprintln(os.Stderr, "usage: client path/to/diltzekun-live")
		os.Exit(2)
	}
	oracle := exec.Command(os.Args[1])
	ask, _ := oracle.StdinPipe()
	answers, _ := oracle.StdoutPipe()
	if err := oracle.Start(); err != nil {
		fmt.Fprintln(os.Stderr, err)
		os.Exit(2)
	}
	lines := bufio.NewReader(answers)
	fmt.Fprintln(ask, "vmatrace 1")
	for made := 0; made < calls; made++ {
		line, result := call()
		fmt.Fprintln(ask, line)
		answer, _ := lines.ReadString('\n')
		_, wanted, _ := strings.Cut(strings.TrimSuffix(answer, "\n"), "= ")
		if wanted != result {
			fmt.Printf("%s: kernel %s, oracle %s\n", line, result, wanted)
			os.Exit(1)
		}
	}
	ask.Close()
	io.Copy(io.Discard, lines) // the last list
	fmt.Printf("%d calls: no difference\n", calls)
}
