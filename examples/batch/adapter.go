// A small address space behind an adapter: `go build -o adapter adapter.go vma_adapter.go`, then `vma compare --batch -- ./adapter`.
// It is a sorted list of VMAs with mmap, munmap, mprotect and faults. Yours stands in the place of `areaList`.
package main

import "strings"

const (
	page                                             = 4096
	write                                            = 2
	mapShared, mapPrivate, mapFixed, mapAnon, noRepl = 1, 2, 0x10, 0x20, 0x100000
)

type areaList struct {
	settings settings
	list     []area
}

func (s *areaList) areas() []area { return s.list }

func (s *areaList) fork() space { return &areaList{s.settings, append([]area(nil), s.list...)} }

func least(a, b uint64) uint64 {
	if a < b {
		return a
	}
	return b
}

func greatest(a, b uint64) uint64 {
	if a > b {
		return a
	}
	return b
}

func rounded(length uint64) uint64 { return (length + page - 1) / page * page }

func isTooLong(length uint64) bool { return length > 1<<63 }

func cut(a area, start, end uint64) area {
	if a.file != nil {
		a.offset += start - a.start
	}
	a.start, a.end = start, end
	return a
}

func (s *areaList) isMapped(start, end uint64) bool {
	for _, a := range s.list {
		if a.start < end && a.end > start {
			return true
		}
	}
	return false
}

// At the hint, or as high as there is room below the top, or as low as there is from a third of memory up; 0 where there is none.
func (s *areaList) place(hint, size uint64) uint64 {
	if hint != 0 {
		hint = greatest(hint, s.settings.min)
		if hint <= s.settings.end-size && !s.isMapped(hint, hint+size) {
			return hint
		}
	}
	end := s.settings.top
	for i := len(s.list) - 1; i >= 0 && !(end >= s.list[i].end && end-s.list[i].end >= size); i-- {
		end = least(end, s.list[i].start)
	}
	if end >= size && end-size >= s.settings.min {
		return end - size
	}
	start := greatest(s.settings.min, rounded(s.settings.end/3))
	for i := 0; i < len(s.list) && !(s.list[i].start >= start && s.list[i].start-start >= size); i++ {
		start = greatest(start, s.list[i].end)
	}
	if size > s.settings.end-start {
		return 0
	}
	return start
}

// Unmaps a range, puts VMAs there, and joins neighbours that look alike.
func (s *areaList) replace(start, end uint64, middle ...area) {
	var below, above, joined []area
	for _, a := range s.list {
		if a.start < start {
			below = append(below, cut(a, a.start, least(a.end, start)))
		}
		if a.end > end {
			above = append(above, cut(a, greatest(a.start, end), a.end))
		}
	}
	for _, a := range append(append(below, middle...), above...) {
		if last := len(joined) - 1; last >= 0 && joined[last].end == a.start {
			whole := joined[last]
			whole.end = a.end
			if cut(whole, a.start, a.end) == a {
				joined[last] = whole
				continue
			}
		}
		joined = append(joined, a)
	}
	s.list = joined
}

func (s *areaList) mmap(address, length uint64, prot int, flags uint64, file *file, offset uint64) (uint64, string) {
	size, isFixed := rounded(length), flags&(mapFixed|noRepl) != 0
	isOfFile := file != nil && flags&mapAnon == 0
	switch {
	case offset%page != 0:
		return 0, "EINVAL"
	case file == nil && flags&mapAnon == 0:
		return 0, "EBADF"
	case length == 0:
		return 0, "EINVAL"
	case isTooLong(length) || size > s.settings.end:
		return 0, "ENOMEM"
	case isOfFile && (offset >= 1<<63 || size > 1<<63-1-offset):
		return 0, "EOVERFLOW"
	case (flags&mapShared == 0) == (flags&mapPrivate == 0):
		return 0, "EINVAL"
	case isOfFile && (!strings.Contains(file.mode, "r") || !strings.Contains(file.mode, "w") && flags&mapShared != 0 && prot&write != 0):
		return 0, "EACCES"
	case isFixed && address%page != 0:
		return 0, "EINVAL"
	case isFixed && address < s.settings.min:
		return 0, "EPERM"
	case isFixed && address > s.settings.end-size:
		return 0, "ENOMEM"
	case flags&noRepl != 0 && s.isMapped(address, address+size):
		return 0, "EEXIST"
	}
	if !isFixed {
		if address = s.place(address/page*page, size); address == 0 {
			return 0, "ENOMEM"
		}
	}
	if !isOfFile {
		offset = 0
	}
	s.replace(address, address+size, area{address, address + size, prot, flags&mapShared != 0, false, file, offset})
	return address, ""
}

func (s *areaList) munmap(address, length uint64) string {
	size := rounded(length)
	if address%page != 0 || length == 0 || isTooLong(length) || size > s.settings.end || address > s.settings.end-size {
		return "EINVAL"
	}
	s.replace(address, address+size)
	return ""
}

func (s *areaList) mprotect(address, length uint64, prot int) string {
	end := address + rounded(length)
	if address%page != 0 {
		return "EINVAL"
	}
	if end < address || length > 1<<64-page {
		return "ENOMEM"
	}
	for _, a := range s.list {
		if a.start <= address && address < least(a.end, end) {
			if a.shared && a.file != nil && !strings.Contains(a.file.mode, "w") && prot&write != 0 {
				return "EACCES"
			}
			part := cut(a, address, least(a.end, end))
			part.prot = prot
			s.replace(part.start, part.end, part)
			address = part.end
		}
	}
	if address < end {
		return "ENOMEM"
	}
	return ""
}

func (s *areaList) fault(address uint64, access byte) (served area, grew bool, signal string) {
	for _, a := range s.list {
		if address < a.start || address >= a.end {
			continue
		}
		if a.prot&map[byte]int{'r': 7, 'w': 2, 'x': 4}[access] == 0 {
			return a, false, "SIGSEGV SEGV_ACCERR"
		}
		if a.file != nil && a.offset+address-a.start >= rounded(a.file.size) {
			return a, false, "SIGBUS BUS_ADRERR"
		}
		return a, false, ""
	}
	return area{}, false, "SIGSEGV SEGV_MAPERR"
}

func main() {
	serve("limit top wide MAP_GROWSDOWN", func(s settings) space { return &areaList{settings: s} })
}
