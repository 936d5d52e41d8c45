//! A program with the same rules, for `compare.py`: one object at a base, PT_LOADs, RELATIVE relocations, the text. It makes
//! no test of the file. `rustc --edition 2021 -O -C target-cpu=x86-64-v2 bench/benchmarks/untested.rs`; with `--cfg tests -o two_tests`
//! it makes the two tests that take time on large tables: no tag that may be present only once is present twice, and the
//! place of each relocation lies in a PT_LOAD. Both come before anything is written.
use std::fs;
use std::io::{self, Write};
use std::os::fd::FromRawFd;

const BUFFER: usize = 256 * 1024;

fn u16_at(f: &[u8], at: usize) -> u16 {
    u16::from_le_bytes(f[at..at + 2].try_into().unwrap())
}
fn u32_at(f: &[u8], at: usize) -> u32 {
    u32::from_le_bytes(f[at..at + 4].try_into().unwrap())
}
fn u64_at(f: &[u8], at: usize) -> u64 {
    u64::from_le_bytes(f[at..at + 8].try_into().unwrap())
}

struct Load {
    offset: usize,
    address: u64,
    file: usize,
    memory: usize,
    flags: u32,
}

struct Out<W: Write> {
    out: W,
    bytes: Vec<u8>,
    used: usize,
}

#[inline(always)]
fn hex16(line: &[u8; 16]) -> [u8; 32] {
    let mut text = [0u8; 32];
    let mut high = [0u8; 16];
    let mut low = [0u8; 16];
    for i in 0..16 {
        let h = line[i] >> 4;
        let l = line[i] & 15;
        high[i] = h + 48 + if h > 9 { 39 } else { 0 };
        low[i] = l + 48 + if l > 9 { 39 } else { 0 };
    }
    for i in 0..16 {
        text[2 * i] = high[i];
        text[2 * i + 1] = low[i];
    }
    text
}

impl<W: Write> Out<W> {
    fn flush(&mut self) -> io::Result<()> {
        self.out.write_all(&self.bytes[..self.used])?;
        self.used = 0;
        Ok(())
    }
    fn put(&mut self, text: &[u8]) -> io::Result<()> {
        if BUFFER - self.used < text.len() {
            self.flush()?;
        }
        self.bytes[self.used..self.used + text.len()].copy_from_slice(text);
        self.used += text.len();
        Ok(())
    }
    fn lines(&mut self, bytes: &[u8]) -> io::Result<()> {
        let chunks = bytes.chunks_exact(16);
        let rest = chunks.remainder();
        for line in chunks {
            if BUFFER - self.used < 33 {
                self.flush()?;
            }
            let to: &mut [u8; 33] = (&mut self.bytes[self.used..self.used + 33])
                .try_into()
                .unwrap();
            let text = hex16(line.try_into().unwrap());
            to[..32].copy_from_slice(&text);
            to[32] = b'\n';
            self.used += 33;
        }
        if !rest.is_empty() {
            let mut line = [0u8; 16];
            line[..rest.len()].copy_from_slice(rest);
            let text = hex16(&line);
            self.put(&text[..2 * rest.len()])?;
            self.put(b"\n")?;
        }
        Ok(())
    }
}

/// Asserts that no tag that may be present only once is present twice.
#[cfg(tests)]
fn test_tags(section: &[u8]) {
    let mut counts = [0u32; 40];
    for entry in section.chunks_exact(16) {
        match u64_at(entry, 0) {
            0 => break,
            tag if tag < 37 => counts[tag as usize] += 1,
            0x6fff_fff0 => counts[37] += 1,
            0x6fff_fffc => counts[38] += 1,
            0x6fff_fffe => counts[39] += 1,
            _ => {}
        }
    }
    let single = [2, 4, 5, 6, 7, 8, 9, 10, 11, 14, 16, 17, 20, 23, 30, 36, 37, 38, 39];
    assert!(single.iter().all(|&tag| counts[tag] < 2));
}

/// Asserts that the eight bytes at each relocation's place lie in the memory of a PT_LOAD.
#[cfg(tests)]
fn test_places(table: &[u8], loads: &[Load]) {
    let holds = |l: &Load, place: u64| place >= l.address && place + 8 <= l.address + l.memory as u64;
    let mut near = 0;
    for entry in table.chunks_exact(24) {
        let place = u64_at(entry, 0);
        if u64_at(entry, 8) as u32 != 0 && !holds(&loads[near], place) {
            near = loads.partition_point(|l| l.address <= place) - 1;
            assert!(holds(&loads[near], place));
        }
    }
}

fn main() -> io::Result<()> {
    let args: Vec<String> = std::env::args().collect();
    let file = fs::read(&args[1])?;
    let base = u64::from_str_radix(&args[2][2..], 16).unwrap();
    let f = &file[..];
    let phoff = u64_at(f, 32) as usize;
    let phnum = u16_at(f, 56) as usize;
    let mut loads: Vec<Load> = Vec::new();
    let mut dynamic = None;
    for i in 0..phnum {
        let at = phoff + 56 * i;
        match u32_at(f, at) {
            1 => loads.push(Load {
                flags: u32_at(f, at + 4),
                offset: u64_at(f, at + 8) as usize,
                address: u64_at(f, at + 16),
                file: u64_at(f, at + 32) as usize,
                memory: u64_at(f, at + 40) as usize,
            }),
            2 => dynamic = Some((u64_at(f, at + 8) as usize, u64_at(f, at + 32) as usize)),
            _ => {}
        }
    }
    let (mut rela, mut relasz) = (0u64, 0u64);
    let (start, size) = dynamic.unwrap();
    #[cfg(tests)]
    test_tags(&f[start..start + size]);
    for i in 0..size / 16 {
        match u64_at(f, start + 16 * i) {
            0 => break,
            7 => rela = u64_at(f, start + 16 * i + 8),
            8 => relasz = u64_at(f, start + 16 * i + 8),
            _ => {}
        }
    }
    let mut image: Vec<Vec<u8>> = loads
        .iter()
        .map(|l| {
            let mut bytes = Vec::with_capacity(l.memory);
            bytes.extend_from_slice(&f[l.offset..l.offset + l.file]);
            bytes.resize(l.memory, 0);
            bytes
        })
        .collect();
    let find = |address: u64| -> usize { loads.partition_point(|l| l.address <= address) - 1 };
    let mut near = 0;
    if relasz > 0 {
        let table = find(rela);
        let start = loads[table].offset + (rela - loads[table].address) as usize;
        #[cfg(tests)]
        test_places(&f[start..start + relasz as usize], &loads);
        for i in 0..(relasz / 24) as usize {
            let at = start + 24 * i;
            let place = u64_at(f, at);
            if u64_at(f, at + 8) as u32 == 8 {
                let value = base.wrapping_add(u64_at(f, at + 16));
                if !(place >= loads[near].address
                    && place + 8 <= loads[near].address + loads[near].memory as u64)
                {
                    near = find(place);
                }
                let inside = (place - loads[near].address) as usize;
                image[near][inside..inside + 8].copy_from_slice(&value.to_le_bytes());
            }
        }
    }
    let stdout = unsafe { fs::File::from_raw_fd(1) };
    let mut out = Out {
        out: stdout,
        bytes: vec![0; BUFFER],
        used: 0,
    };
    out.put(format!("object 0x{:016x} /program\n", base).as_bytes())?;
    for (l, bytes) in loads.iter().zip(&image) {
        if bytes.is_empty() {
            continue;
        }
        let letter = |bit, c| if l.flags & bit != 0 { c } else { '-' };
        out.put(
            format!(
                "segment 0x{:016x} {} {}{}{}\n",
                base + l.address,
                bytes.len(),
                letter(4, 'r'),
                letter(2, 'w'),
                letter(1, 'x')
            )
            .as_bytes(),
        )?;
        out.lines(bytes)?;
    }
    out.put(b"end\n")?;
    out.flush()
}
