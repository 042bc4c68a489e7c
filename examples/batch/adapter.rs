//! A small address space behind an adapter: `rustc -O --edition 2021 -o adapter adapter.rs`, then `vma compare --batch -- ./adapter`.
//! It is a sorted list of VMAs with mmap, munmap, mprotect and faults. Yours stands in the place of `Areas`.
mod vma_adapter;
use std::rc::Rc;
use vma_adapter::{Area, File, Reply, Settings, Space};

const PAGE: u64 = 4096;
const WRITE: u32 = 2;
const SHARED: u64 = 1;
const PRIVATE: u64 = 2;
const FIXED: u64 = 0x10;
const ANONYMOUS: u64 = 0x20;
const NOREPLACE: u64 = 0x100000;

#[derive(Clone)]
struct Areas {
    top: u64,
    min: u64,
    end: u64,
    list: Vec<Area>,
}

fn cut(area: &Area, start: u64, end: u64) -> Area {
    let offset = if area.file.is_some() { area.offset + start - area.start } else { 0 };
    Area { start, end, offset, ..area.clone() }
}

fn rounded(length: u64) -> Option<u64> {
    length.checked_next_multiple_of(PAGE)
}

impl Areas {
    fn is_mapped(&self, start: u64, end: u64) -> bool {
        self.list.iter().any(|area| area.start < end && area.end > start)
    }

    /// At the hint, or as high as there is room below the top, or as low as there is from a third of memory up.
    fn place(&self, hint: u64, size: u64) -> Option<u64> {
        let hint = if hint == 0 { 0 } else { hint.max(self.min) };
        if hint != 0 && hint.checked_add(size).is_some_and(|end| end <= self.end && !self.is_mapped(hint, end)) {
            return Some(hint);
        }
        let mut end = self.top;
        for area in self.list.iter().rev() {
            if end >= area.end && end - area.end >= size {
                break;
            }
            end = end.min(area.start);
        }
        if let Some(start) = end.checked_sub(size).filter(|&start| start >= self.min) {
            return Some(start);
        }
        let mut start = (self.end / 3).next_multiple_of(PAGE).max(self.min);
        for area in &self.list {
            if area.start >= start && area.start - start >= size {
                break;
            }
            start = start.max(area.end);
        }
        Some(start).filter(|start| size <= self.end - start)
    }

    /// Unmaps a range, puts a VMA there, and joins neighbours that look alike.
    fn replace(&mut self, start: u64, end: u64, new: Option<Area>) {
        let below = self.list.iter().filter(|area| area.start < start).map(|area| cut(area, area.start, area.end.min(start)));
        let above = self.list.iter().filter(|area| area.end > end).map(|area| cut(area, area.start.max(end), area.end));
        let mut list: Vec<Area> = Vec::new();
        for area in below.chain(new).chain(above) {
            match list.last_mut() {
                Some(last) if last.end == area.start && cut(&Area { end: area.end, ..last.clone() }, area.start, area.end) == area => {
                    last.end = area.end;
                }
                _ => list.push(area),
            }
        }
        self.list = list;
    }
}

impl Space for Areas {
    const HAS: &'static str = "mmap munmap mprotect fault maps fork min file -MAP_GROWSDOWN";

    fn open(settings: &Settings) -> Self {
        Areas { top: settings.top, min: settings.min, end: settings.end, list: Vec::new() }
    }

    fn mmap(&mut self, address: u64, length: u64, prot: u32, flags: u64, file: Option<Rc<File>>, offset: u64) -> Reply {
        let of_file = file.as_ref().filter(|_| flags & ANONYMOUS == 0);
        if offset % PAGE != 0 {
            return Err("EINVAL");
        }
        if flags & ANONYMOUS == 0 && file.is_none() {
            return Err("EBADF");
        }
        let size = rounded(length).filter(|&size| size <= self.end).ok_or("ENOMEM")?;
        if size == 0 {
            return Err("EINVAL");
        }
        if of_file.is_some() && offset.checked_add(size).is_none_or(|end| end > i64::MAX as u64) {
            return Err("EOVERFLOW");
        }
        if (flags & SHARED == 0) == (flags & PRIVATE == 0) {
            return Err("EINVAL");
        }
        if of_file.is_some_and(|f| !f.mode.contains('r') || !f.mode.contains('w') && flags & SHARED != 0 && prot & WRITE != 0) {
            return Err("EACCES");
        }
        let fixed = flags & (FIXED | NOREPLACE) != 0;
        if fixed && (address % PAGE != 0 || address < self.min || address > self.end - size) {
            return Err(if address % PAGE != 0 { "EINVAL" } else if address < self.min { "EPERM" } else { "ENOMEM" });
        }
        if flags & NOREPLACE != 0 && self.is_mapped(address, address + size) {
            return Err("EEXIST");
        }
        let start = if fixed { address } else { self.place(address / PAGE * PAGE, size).ok_or("ENOMEM")? };
        let offset = if of_file.is_some() { offset } else { 0 };
        let new = Area { start, end: start + size, prot, shared: flags & SHARED != 0, heap: false, file, offset };
        self.replace(start, start + size, Some(new));
        Ok(start)
    }

    fn munmap(&mut self, address: u64, length: u64) -> Reply {
        let end = rounded(length).filter(|&size| size > 0).and_then(|size| address.checked_add(size));
        match end {
            Some(end) if address % PAGE == 0 && end <= self.end => self.replace(address, end, None),
            _ => return Err("EINVAL"),
        }
        Ok(0)
    }

    fn mprotect(&mut self, mut address: u64, length: u64, prot: u32) -> Reply {
        if address % PAGE != 0 {
            return Err("EINVAL");
        }
        let end = rounded(length).and_then(|size| address.checked_add(size)).ok_or("ENOMEM")?;
        for area in self.list.clone() {
            if area.start <= address && address < area.end.min(end) {
                if area.shared && prot & WRITE != 0 && area.file.as_ref().is_some_and(|file| !file.mode.contains('w')) {
                    return Err("EACCES");
                }
                let part = Area { prot, ..cut(&area, address, area.end.min(end)) };
                address = part.end;
                self.replace(part.start, part.end, Some(part));
            }
        }
        if address < end { Err("ENOMEM") } else { Ok(0) }
    }

    fn fault(&mut self, address: u64, access: char) -> Result<(Area, bool), &'static str> {
        let area = self.list.iter().find(|area| area.start <= address && address < area.end).ok_or("SIGSEGV SEGV_MAPERR")?;
        if area.prot & (if access == 'r' { 7 } else if access == 'w' { 2 } else { 4 }) == 0 {
            return Err("SIGSEGV SEGV_ACCERR");
        }
        if area.file.as_ref().is_some_and(|file| area.offset + address - area.start >= rounded(file.size).unwrap_or(u64::MAX)) {
            return Err("SIGBUS BUS_ADRERR");
        }
        Ok((area.clone(), false))
    }

    fn areas(&self) -> &[Area] {
        &self.list
    }

    fn fork(&self) -> Option<Self> {
        Some(self.clone())
    }
}

fn main() -> std::io::Result<()> {
    vma_adapter::serve::<Areas>()
}
