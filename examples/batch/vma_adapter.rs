//! An adapter of your system in a few functions: `serve::<YourSpace>()` reads traces on standard input, makes their calls on
//! your type, and writes the results. `vma compare --batch` and `vma conform --batch` send many of them.
//!
//! Addresses, lengths and offsets are in bytes, protections and flags the bits of Linux. A call gives an address or 0, or the
//! name of an error. Traces are taken to be good, as the tools make them. It needs the standard library alone.
use std::io::{self, BufRead, BufWriter, Write};
use std::rc::Rc;

pub type Reply = Result<u64, &'static str>;

/// Where the first search begins and ends, where the heap begins (0: there is none), where user memory ends, and how many VMAs
/// there may be.
pub struct Settings {
    pub top: u64,
    pub min: u64,
    pub heap: u64,
    pub end: u64,
    pub limit: u64,
}

/// What a mapping maps.
#[derive(PartialEq)]
pub struct File {
    pub fd: i64,
    pub mode: String,
    pub size: u64,
    pub major: u32,
    pub minor: u32,
    pub inode: u64,
    pub name: String,
}

#[derive(Clone, PartialEq)]
pub struct Area {
    pub start: u64,
    pub end: u64,
    pub prot: u32,
    pub shared: bool,
    pub heap: bool,
    pub file: Option<Rc<File>>,
    pub offset: u64,
}

impl Area {
    fn perms(&self) -> String {
        let letter = |bit, letter| if self.prot & bit != 0 { letter } else { '-' };
        let shared = if self.shared { 's' } else { 'p' };
        format!("{:08x}-{:08x} {}{}{}{shared}", self.start, self.end, letter(1, 'r'), letter(2, 'w'), letter(4, 'x'))
    }

    fn line(&self) -> String {
        let front = match &self.file {
            Some(f) => format!("{} {:08x} {:02x}:{:02x} {} ", self.perms(), self.offset, f.major, f.minor, f.inode),
            None => format!("{} 00000000 00:00 0 ", self.perms()),
        };
        let name = self.file.as_ref().map_or(if self.heap { "[heap]" } else { "" }, |f| &f.name);
        let blanks = if name.is_empty() { 0 } else { 73usize.saturating_sub(front.len()).max(1) };
        format!("{front}{:blanks$}{name}\n", "")
    }
}

/// An address space of yours. What `HAS` doesn't name is left out of traces.
pub trait Space: Sized {
    /// Operations, and `limit`, `top`, `min`, `heap`, `file`, `wide` where it takes these; `-MAP_GROWSDOWN` for a flag that it has not.
    const HAS: &'static str;
    fn open(settings: &Settings) -> Self;
    fn mmap(&mut self, _address: u64, _length: u64, _prot: u32, _flags: u64, _file: Option<Rc<File>>, _offset: u64) -> Reply {
        Err("ENOSYS")
    }
    fn munmap(&mut self, _address: u64, _length: u64) -> Reply {
        Err("ENOSYS")
    }
    fn mprotect(&mut self, _address: u64, _length: u64, _prot: u32) -> Reply {
        Err("ENOSYS")
    }
    fn mremap(&mut self, _old: u64, _old_length: u64, _new_length: u64, _flags: u64, _new: u64) -> Reply {
        Err("ENOSYS")
    }
    fn brk(&mut self, _address: u64) -> Reply {
        Err("ENOSYS")
    }
    fn mseal(&mut self, _address: u64, _length: u64, _flags: u64) -> Reply {
        Err("ENOSYS")
    }
    /// The VMA that serves an access, and whether it was expanded; or the signal and its code.
    fn fault(&mut self, _address: u64, _access: char) -> Result<(Area, bool), &'static str> {
        Err("SIGSEGV SEGV_MAPERR")
    }
    /// By address.
    fn areas(&self) -> &[Area] {
        &[]
    }
    /// A copy, for a fork.
    fn fork(&self) -> Option<Self> {
        None
    }
}

/// What was answered: the version, whether it was a call, the thread, and the text.
type Item = (u64, bool, usize, String);

struct Run<S> {
    space: S,
    objects: u64,
    version: u64,
    head: String,
    items: Vec<Item>,
}

struct Trace<S> {
    settings: Settings,
    files: Vec<Rc<File>>,
    runs: Vec<Option<Run<S>>>, // the parent's first, then by child
    line: usize,
}

impl<S: Space> Trace<S> {
    fn new() -> Self {
        let settings = Settings { top: 0x7fff_f7ff_f000, min: 0x10000, heap: 0, end: 0x7fff_ffff_f000, limit: 65530 };
        Trace { settings, files: Vec::new(), runs: (0..64).map(|_| None).collect(), line: 0 }
    }

    fn open(&mut self) {
        if self.runs[0].is_none() {
            let (space, objects) = (S::open(&self.settings), self.files.len() as u64);
            self.runs[0] = Some(Run { space, objects, version: 0, head: String::new(), items: Vec::new() });
        }
    }

    fn read(&mut self, text: &str) {
        self.line += 1;
        let words: Vec<&str> = text.split([' ', '\t']).filter(|word| !word.is_empty()).collect();
        match words[..] {
            [] => {}
            ["vmatrace", "2", ..] => self.settings.end = 0xf_ffff_ffff_f000,
            ["limit", _, value] => self.settings.limit = number(value),
            ["top", value] => self.settings.top = number(value),
            ["min", value] => self.settings.min = number(value),
            ["heap", value] => self.settings.heap = number(value),
            ["file", fd, mode, size, device, inode, ..] => self.file(text, fd, mode, size, device, inode),
            [first, ..] if first.as_bytes()[0].is_ascii_digit() => self.operation(&words),
            _ => {}
        }
    }

    fn file(&mut self, text: &str, fd: &str, mode: &str, size: &str, device: &str, inode: &str) {
        let (major, minor) = device.split_once(':').unwrap_or(("0", "0"));
        let half = |text| u32::from_str_radix(text, 16).unwrap_or(0);
        let mut name = text.trim_start_matches([' ', '\t']); // it goes on to the end of the line, blanks too
        for _ in 0..6 {
            name = name.trim_start_matches(|letter| letter != ' ' && letter != '\t').trim_start_matches([' ', '\t']);
        }
        let (major, minor, mode, name) = (half(major), half(minor), mode.into(), name.into());
        self.files.push(Rc::new(File { fd: number(fd) as i64, mode, size: number(size), major, minor, inode: number(inode), name }));
    }

    fn operation(&mut self, words: &[&str]) {
        self.open();
        let thread: usize = words[0].parse().unwrap_or(0);
        let place = if self.runs[thread].is_some() { thread } else { 0 };
        let files = &self.files;
        let run = self.runs[place].as_mut().unwrap();
        let (mut is_call, mut made) = (false, None);
        let result = match words[1] {
            "maps" => list(&run.space),
            "fork" => {
                let (child, count) = (words[2].parse().unwrap_or(0), run.space.areas().len());
                made = run.space.fork().map(|space| (child, space, run.objects, run.version));
                format!("child {child} areas {count}\n")
            }
            "fault" => match run.space.fault(number(words[2]), words[3].chars().next().unwrap_or('r')) {
                Ok((area, grew)) => {
                    is_call = grew;
                    let page = if area.file.is_some() { (area.offset + number(words[2]) - area.start) / 4096 } else { 0 };
                    format!("served {} page {page}\n", area.perms())
                }
                Err(signal) => format!("{signal}\n"),
            },
            name => {
                is_call = true;
                match call(run, files, words) {
                    Ok(0) if name != "brk" => "0\n".into(),
                    Ok(address) => format!("{address:#x}\n"),
                    Err(error) => format!("-1 {error}\n"),
                }
            }
        };
        run.version += is_call as u64;
        run.items.push((run.version, is_call, thread, format!("L{} t{thread} v{} = {result}", self.line, run.version)));
        if let Some((child, space, objects, version)) = made {
            let head = format!("child {child} of L{} v{version}\n", self.line);
            self.runs[child as usize] = Some(Run { space, objects, version: 0, head, items: Vec::new() });
        }
    }

    /// By version the call first, then the reads by thread, those of one thread in the order of their lines.
    fn write(&mut self, output: &mut impl Write) -> io::Result<()> {
        self.open();
        for run in self.runs.iter_mut().flatten() {
            run.items.sort_by_key(|&(version, is_call, thread, _)| (version, !is_call, if is_call { 0 } else { thread }));
            output.write_all(run.head.as_bytes())?;
            for item in &run.items {
                output.write_all(item.3.as_bytes())?;
            }
            output.write_all(list(&run.space).as_bytes())?;
        }
        Ok(())
    }
}

fn call<S: Space>(run: &mut Run<S>, files: &[Rc<File>], words: &[&str]) -> Reply {
    let n = |place: usize| number(words[place]);
    match words[1] {
        "mmap" => {
            let flags = flags(words[5]);
            let fd = words[6].parse().unwrap_or(-1);
            let mut file = files.iter().find(|file| flags & 0x20 == 0 && file.fd == fd).cloned();
            let is_new = flags & 0x21 == 0x21; // shared memory without a file: each has a number of its own
            if is_new {
                let (size, inode, name) = (i64::MAX as u64, run.objects + 1, "/dev/zero (deleted)".into());
                file = Some(Rc::new(File { fd: -1, mode: "rw".into(), size, major: 0, minor: 1, inode, name }));
            }
            let reply = run.space.mmap(n(2), n(3), self::flags(words[4]) as u32, flags, file, n(7));
            run.objects += (is_new && reply.is_ok()) as u64;
            reply
        }
        "munmap" => run.space.munmap(n(2), n(3)),
        "mprotect" => run.space.mprotect(n(2), n(3), flags(words[4]) as u32),
        "mremap" => {
            let new = words.get(6).filter(|word| !word.starts_with("after=")).map_or(0, |word| number(word));
            run.space.mremap(n(2), n(3), n(4), flags(words[5]), new)
        }
        "brk" => run.space.brk(n(2)),
        "mseal" => run.space.mseal(n(2), n(3), n(4)),
        _ => Err("ENOSYS"),
    }
}

fn list<S: Space>(space: &S) -> String {
    let lines: String = space.areas().iter().map(Area::line).collect();
    format!("maps {}\n{lines}", space.areas().len())
}

fn number(text: &str) -> u64 {
    text.strip_prefix("0x").map_or_else(|| text.parse(), |digits| u64::from_str_radix(digits, 16)).unwrap_or(0)
}

fn flags(text: &str) -> u64 {
    const NAMES: [(&str, u64); 17] = [
        ("PROT_READ", 1), ("PROT_WRITE", 2), ("PROT_EXEC", 4), ("MAP_SHARED", 1), ("MAP_PRIVATE", 2), ("MAP_FIXED", 0x10),
        ("MAP_ANONYMOUS", 0x20), ("MAP_GROWSDOWN", 0x100), ("MAP_DENYWRITE", 0x800), ("MAP_EXECUTABLE", 0x1000),
        ("MAP_NORESERVE", 0x4000), ("MAP_POPULATE", 0x8000), ("MAP_STACK", 0x20000), ("MAP_FIXED_NOREPLACE", 0x100000),
        ("MREMAP_MAYMOVE", 1), ("MREMAP_FIXED", 2), ("MREMAP_DONTUNMAP", 4),
    ];
    text.split('|').filter_map(|name| NAMES.iter().find(|known| known.0 == name)).map(|known| known.1).sum()
}

/// Answers the trace on standard input, or as many as come there, until it ends.
pub fn serve<S: Space>() -> io::Result<()> {
    let mut output = BufWriter::new(io::stdout().lock());
    let (mut trace, mut last, mut has_told) = (Trace::<S>::new(), None, false); // `last` ends the trace, of many
    for line in io::stdin().lock().lines() {
        let line = line?;
        if let Some(words) = line.strip_prefix("trace ") {
            (trace, last) = (Trace::new(), words.split(' ').next().map(|number| format!("end {number}")));
        } else if last.as_ref() == Some(&line) {
            if !std::mem::replace(&mut has_told, true) {
                writeln!(output, "has {}", S::HAS)?;
            }
            trace.write(&mut output)?;
            writeln!(output, "{line}")?;
            output.flush()?;
        } else {
            trace.read(&line);
        }
    }
    if last.is_none() {
        trace.write(&mut output)?;
    }
    output.flush()
}
