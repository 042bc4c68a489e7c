// An adapter of your system in a few methods: serve reads traces on standard input, makes their calls on your type, and writes
// the results. `vma compare --batch` and `vma conform --batch` send many of them.
//
// A space has those of the methods below that it can: what it doesn't have is left out of traces. Addresses, lengths and offsets
// are in bytes, protections and flags the bits of Linux. A call gives an address or 0, and the name of an error or "". Traces are
// taken to be good, as the tools make them. It needs the standard library alone.
package main

import (
	"bufio"
	"fmt"
	"os"
	"sort"
	"strconv"
	"strings"
)

type space interface{}

type mmaps interface {
	mmap(address, length uint64, prot int, flags uint64, file *file, offset uint64) (uint64, string)
}
type munmaps interface {
	munmap(address, length uint64) string
}
type mprotects interface {
	mprotect(address, length uint64, prot int) string
}
type mremaps interface {
	mremap(old, oldLength, newLength, flags, new uint64) (uint64, string)
}
type brks interface{ brk(address uint64) uint64 }
type mseals interface {
	mseal(address, length, flags uint64) string
}

// The VMA that serves an access, and whether it was expanded; or the signal and its code.
type faults interface {
	fault(address uint64, access byte) (served area, grew bool, signal string)
}
type lists interface{ areas() []area } // by address
type forks interface{ fork() space }   // a copy

// Where the first search begins and ends, where the heap begins (0: there is none), where user memory ends, and how many VMAs
// there may be.
type settings struct{ top, min, heap, end, limit uint64 }

// What a mapping maps: keep it with the VMA.
type file struct {
	fd           int
	mode         string
	size         uint64
	major, minor uint64
	inode        uint64
	name         string
}

type area struct {
	start, end   uint64
	prot         int
	shared, heap bool
	file         *file
	offset       uint64
}

func (a area) perms() string {
	letters := []byte("---p")
	for i, bit := range []int{1, 2, 4} {
		if a.prot&bit != 0 {
			letters[i] = "rwx"[i]
		}
	}
	if a.shared {
		letters[3] = 's'
	}
	return fmt.Sprintf("%08x-%08x %s", a.start, a.end, letters)
}

func (a area) line() string {
	front, name := a.perms()+" 00000000 00:00 0 ", ""
	if a.heap {
		name = "[heap]"
	}
	if f := a.file; f != nil {
		front, name = fmt.Sprintf("%s %08x %02x:%02x %d ", a.perms(), a.offset, f.major, f.minor, f.inode), f.name
	}
	if name != "" {
		front = fmt.Sprintf("%-72s %s", front, name)
	}
	return front + "\n"
}

type item struct {
	version uint64
	isCall  bool
	thread  int
	text    string
}

type run struct {
	space   space
	objects uint64
	version uint64
	head    string
	items   []item
}

type trace struct {
	open     func(settings) space
	settings settings
	files    []*file
	runs     [64]*run // the parent's first, then by child
	line     int
}

func begin(open func(settings) space) *trace {
	return &trace{open: open, settings: settings{top: 0x7ffff7fff000, min: 0x10000, end: 0x7ffffffff000, limit: 65530}}
}

func number(text string) uint64 {
	if strings.HasPrefix(text, "0x") {
		value, _ := strconv.ParseUint(text[2:], 16, 64)
		return value
	}
	value, _ := strconv.ParseUint(text, 10, 64)
	return value
}

var names = map[string]uint64{
	"PROT_READ": 1, "PROT_WRITE": 2, "PROT_EXEC": 4, "MAP_SHARED": 1, "MAP_PRIVATE": 2, "MAP_FIXED": 0x10, "MAP_ANONYMOUS": 0x20,
	"MAP_GROWSDOWN": 0x100, "MAP_DENYWRITE": 0x800, "MAP_EXECUTABLE": 0x1000, "MAP_NORESERVE": 0x4000, "MAP_POPULATE": 0x8000,
	"MAP_STACK": 0x20000, "MAP_FIXED_NOREPLACE": 0x100000, "MREMAP_MAYMOVE": 1, "MREMAP_FIXED": 2, "MREMAP_DONTUNMAP": 4,
}

func flagsOf(text string) (bits uint64) {
	for _, name := range strings.Split(text, "|") {
		bits |= names[name]
	}
	return bits
}

func list(s space) string {
	own, isThere := s.(lists)
	if !isThere {
		return "maps 0\n"
	}
	areas := own.areas()
	text := fmt.Sprintf("maps %d\n", len(areas))
	for _, a := range areas {
		text += a.line()
	}
	return text
}

func (t *trace) parent() *run {
	if t.runs[0] == nil {
		t.runs[0] = &run{space: t.open(t.settings), objects: uint64(len(t.files))}
	}
	return t.runs[0]
}

func (t *trace) read(text string) {
	t.line++
	words := strings.FieldsFunc(text, func(letter rune) bool { return letter == ' ' || letter == '\t' })
	if len(words) == 0 {
		return
	}
	switch last := number(words[len(words)-1]); words[0] {
	case "vmatrace":
		if words[1] == "2" {
			t.settings.end = 0xfffffffffff000
		}
	case "limit":
		t.settings.limit = last
	case "top":
		t.settings.top = last
	case "min":
		t.settings.min = last
	case "heap":
		t.settings.heap = last
	case "file":
		t.file(text, words)
	default:
		if words[0][0] >= '0' && words[0][0] <= '9' {
			t.operation(words)
		}
	}
}

func (t *trace) file(text string, words []string) {
	name := strings.TrimLeft(text, " \t") // it goes on to the end of the line, blanks too
	for range words[:6] {
		name = strings.TrimLeft(name[strings.IndexAny(name, " \t"):], " \t")
	}
	major, minor, _ := strings.Cut(words[4], ":")
	t.files = append(t.files, &file{int(number(words[1])), words[2], number(words[3]), number("0x" + major), number("0x" + minor), number(words[5]), name})
}

func (t *trace) operation(words []string) {
	thread := int(number(words[0]))
	r := t.parent()
	if t.runs[thread] != nil {
		r = t.runs[thread]
	}
	if strings.HasPrefix(words[len(words)-1], "after=") {
		words = words[:len(words)-1]
	}
	result, isCall := "", false
	switch words[1] {
	case "maps":
		result = list(r.space)
	case "fork":
		child := int(number(words[2]))
		count, _, _ := strings.Cut(strings.TrimPrefix(list(r.space), "maps "), "\n")
		result = fmt.Sprintf("child %d areas %s\n", child, count)
		made := &run{objects: r.objects, head: fmt.Sprintf("child %d of L%d v%d\n", child, t.line, r.version)}
		if own, isThere := r.space.(forks); isThere {
			made.space = own.fork()
		}
		t.runs[child] = made
	case "fault":
		result, isCall = fault(r.space, number(words[2]), words[3][0])
	default:
		isCall = true
		address, wrong := t.call(r, words)
		switch {
		case wrong != "":
			result = "-1 " + wrong + "\n"
		case address == 0 && words[1] != "brk":
			result = "0\n"
		default:
			result = fmt.Sprintf("%#x\n", address)
		}
	}
	if isCall {
		r.version++
	}
	r.items = append(r.items, item{r.version, isCall, thread, fmt.Sprintf("L%d t%d v%d = %s", t.line, thread, r.version, result)})
}

func fault(s space, address uint64, access byte) (string, bool) {
	own, isThere := s.(faults)
	if !isThere {
		return "SIGSEGV SEGV_MAPERR\n", false
	}
	served, grew, signal := own.fault(address, access)
	if signal != "" {
		return signal + "\n", false
	}
	page := uint64(0)
	if served.file != nil {
		page = (served.offset + address - served.start) / 4096
	}
	return fmt.Sprintf("served %s page %d\n", served.perms(), page), grew
}

func (t *trace) call(r *run, words []string) (uint64, string) {
	n := func(place int) uint64 { return number(words[place]) }
	switch words[1] {
	case "mmap":
		if own, isThere := r.space.(mmaps); isThere {
			return t.mmap(own, r, words)
		}
	case "munmap":
		if own, isThere := r.space.(munmaps); isThere {
			return 0, own.munmap(n(2), n(3))
		}
	case "mprotect":
		if own, isThere := r.space.(mprotects); isThere {
			return 0, own.mprotect(n(2), n(3), int(flagsOf(words[4])))
		}
	case "mremap":
		if own, isThere := r.space.(mremaps); isThere {
			return own.mremap(n(2), n(3), n(4), flagsOf(words[5]), number(append(words, "0")[6]))
		}
	case "brk":
		if own, isThere := r.space.(brks); isThere {
			return own.brk(n(2)), ""
		}
	case "mseal":
		if own, isThere := r.space.(mseals); isThere {
			return 0, own.mseal(n(2), n(3), n(4))
		}
	}
	return 0, "ENOSYS"
}

func (t *trace) mmap(own mmaps, r *run, words []string) (uint64, string) {
	flags := flagsOf(words[5])
	var of *file
	for _, f := range t.files {
		if flags&0x20 == 0 && words[6] == strconv.Itoa(f.fd) {
			of = f
		}
	}
	isNew := flags&0x21 == 0x21 // shared memory without a file: each has a number of its own
	if isNew {
		of = &file{-1, "rw", 1<<63 - 1, 0, 1, r.objects + 1, "/dev/zero (deleted)"}
	}
	address, wrong := own.mmap(number(words[2]), number(words[3]), int(flagsOf(words[4])), flags, of, number(words[7]))
	if isNew && wrong == "" {
		r.objects++
	}
	return address, wrong
}

// By version the call first, then the reads by thread, those of one thread in the order of their lines.
func (t *trace) write(output *bufio.Writer) {
	t.parent()
	for _, r := range t.runs {
		if r == nil {
			continue
		}
		sort.SliceStable(r.items, func(i, j int) bool {
			a, b := r.items[i], r.items[j]
			if a.version != b.version || a.isCall != b.isCall {
				return a.version < b.version || a.version == b.version && a.isCall
			}
			return a.thread < b.thread
		})
		output.WriteString(r.head)
		for _, i := range r.items {
			output.WriteString(i.text)
		}
		output.WriteString(list(r.space))
	}
}

// What a space has, beside what it says that it lacks: settings, operations, `wide`, and flags.
func has(s space, lacks string) string {
	words := []string{"limit", "top", "min", "file", "wide"}
	add := func(isThere bool, names ...string) {
		if isThere {
			words = append(words, names...)
		}
	}
	_, isThere := s.(mmaps)
	add(isThere, "mmap")
	_, isThere = s.(munmaps)
	add(isThere, "munmap")
	_, isThere = s.(mprotects)
	add(isThere, "mprotect")
	_, isThere = s.(mremaps)
	add(isThere, "mremap")
	_, isThere = s.(brks)
	add(isThere, "brk", "heap")
	_, isThere = s.(mseals)
	add(isThere, "mseal")
	_, isThere = s.(faults)
	add(isThere, "fault")
	_, isThere = s.(lists)
	add(isThere, "maps")
	_, isThere = s.(forks)
	add(isThere, "fork")
	line := "has"
	for _, word := range words {
		if !strings.Contains(" "+lacks+" ", " "+word+" ") {
			line += " " + word
		}
	}
	for _, word := range strings.Fields(lacks) {
		if strings.HasPrefix(word, "M") {
			line += " -" + word
		}
	}
	return line + "\n"
}

func serve(lacks string, open func(settings) space) {
	input := bufio.NewScanner(os.Stdin)
	input.Buffer(make([]byte, 8192), 8192)
	output := bufio.NewWriter(os.Stdout)
	t, last, hasTold := begin(open), "", false // last ends the trace, of many
	for input.Scan() {
		switch line := input.Text(); {
		case strings.HasPrefix(line, "trace "): // trace N SECONDS: the trace begins in the next line
			t, last = begin(open), "end "+strings.Fields(line)[1]
		case last != "" && line == last: // end N: the output is wanted, and the same line behind it
			if !hasTold {
				output.WriteString(has(t.parent().space, lacks))
				hasTold = true
			}
			t.write(output)
			output.WriteString(line + "\n")
			output.Flush()
		default:
			t.read(line)
		}
	}
	if last == "" {
		t.write(output)
		output.Flush()
	}
}
