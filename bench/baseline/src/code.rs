//! Code: its instructions go to the output as they are read, and its offsets are mended once all places are known.
use crate::canon::Canon;
use crate::fault::{Answer, Fault, Reason};

/// No instruction starts there.
const NONE: u32 = u32::MAX;

/// What follows each opcode, sixteen a line: nothing (0), a u30 (1), two (2), the offset of a branch (b), a switch (s), a
/// byte (y), the number of `pushshort` (h), or the fields of `debug` (d); no instruction has the opcodes of the dots.
const FORMS: &[u8; 256] = b"\
    ..00111010..bbbb\
    bbbbbbbbbbbs0000\
    00.0yh0000001111\
    012.............\
    11122220012.2.22\
    ...1.110111..11.\
    11110y1.1.1.1111\
    000000000.......\
    1.0..010........\
    00101000........\
    0000000000000000\
    00100...........\
    00110000........\
    00000000........\
    ...............d\
    11..............\
";

/// An offset that was copied and has to be mended.
struct Offset {
    /// Its first byte in the input.
    place: u32,
    /// Its first byte in the output.
    out: u32,
    /// The place in the code as it was read from which it counts.
    base: u32,
}

/// The code of one body. Its memory is used again for the next body's.
#[derive(Default)]
pub struct Code {
    /// For each place in the code as it was read and for its end: where the instruction that starts there starts in the
    /// canonical code, or `NONE`.
    moved: Vec<u32>,
    offsets: Vec<Offset>,
}

impl Code {
    /// The length of code and that code.
    pub fn canon(&mut self, c: &mut Canon) -> Answer<()> {
        let start = c.at;
        let length = c.read_u30()?;
        if length >= 1 << 23 {
            return Err(Fault::new(start, Reason::CodeLength));
        }
        let before = c.out.len();
        c.put(length);
        let first = c.out.len();
        self.instructions(c, length as usize)?;
        self.mend(c)?;
        put_length(&mut c.out, before, first);
        Ok(())
    }

    /// The instructions that fill so many bytes. What they need past the code's end is told at their opcode.
    fn instructions(&mut self, c: &mut Canon, length: usize) -> Answer<()> {
        let (whole, first, out_first) = (c.input, c.at, c.out.len());
        let end = first + length;
        c.input = &whole[..end.min(whole.len())];
        self.offsets.clear();
        self.moved.clear();
        self.moved.resize(c.input.len() - first + 1, NONE);
        while c.at < end {
            let here = c.at;
            self.moved[here - first] = (c.out.len() - out_first) as u32;
            self.instruction(c, first)
                .map_err(|fault| match fault.reason {
                    Reason::Short if end <= whole.len() => Fault::new(here, Reason::CodeEnds),
                    _ => fault,
                })?;
        }
        self.moved[length] = (c.out.len() - out_first) as u32;
        c.input = whole;
        Ok(())
    }

    /// One instruction; `first` is where the code began.
    #[inline(always)]
    fn instruction(&mut self, c: &mut Canon, first: usize) -> Answer<()> {
        let here = c.at;
        match FORMS[c.u8()? as usize] {
            b'0' => {}
            b'1' => {
                c.u30()?;
            }
            b'2' => {
                c.u30()?;
                c.u30()?;
            }
            b'b' => self.offset(c, here + 4 - first)?,
            b's' => {
                self.offset(c, here - first)?;
                let cases = c.u30()?;
                for _ in 0..cases + 1 {
                    self.offset(c, here - first)?;
                }
            }
            b'y' => {
                c.u8()?;
            }
            b'h' => {
                let value = c.raw()?;
                c.put(u32::from(value as u16));
            }
            b'd' => {
                c.u8()?;
                c.u30()?;
                c.u8()?;
                c.u30()?;
            }
            _ => return Err(Fault::new(here, Reason::Opcode)),
        }
        Ok(())
    }

    /// An offset from a base, which is copied as it is for now.
    #[inline(always)]
    fn offset(&mut self, c: &mut Canon, base: usize) -> Answer<()> {
        let offset = Offset {
            place: c.at as u32,
            out: c.out.len() as u32,
            base: base as u32,
        };
        c.bytes(3)?;
        self.offsets.push(offset);
        Ok(())
    }

    /// Where the instruction that starts at a place of the code as it was read starts in the canonical code.
    fn start(&self, place: usize) -> Option<u32> {
        self.moved
            .get(place)
            .copied()
            .filter(|&start| start != NONE)
    }

    /// Tests the targets in the order of their places, and makes the offsets those of the canonical code.
    fn mend(&self, c: &mut Canon) -> Answer<()> {
        for offset in &self.offsets {
            let place = offset.place as usize;
            let bytes = &c.input[place..place + 3];
            let distance = i32::from_le_bytes([0, bytes[0], bytes[1], bytes[2]]) >> 8;
            let target = usize::try_from(offset.base as i32 + distance).ok();
            let start = target
                .and_then(|t| self.start(t))
                .ok_or(Fault::new(place, Reason::Target))?;
            let mended = start
                .wrapping_sub(self.moved[offset.base as usize])
                .to_le_bytes();
            let out = offset.out as usize;
            c.out[out..out + 3].copy_from_slice(&mended[..3]);
        }
        Ok(())
    }

    /// A place in the code, as an exception names it.
    pub fn place(&self, c: &mut Canon) -> Answer<()> {
        let at = c.at;
        let place = c.read_u30()?;
        let start = self
            .start(place as usize)
            .ok_or(Fault::new(at, Reason::HandlerRange))?;
        c.put(start);
        Ok(())
    }
}

/// Puts the length of the code from `first` on in place of the longer or equal one that stands from `before` to `first`.
fn put_length(out: &mut Vec<u8>, before: usize, first: usize) {
    let mut length = out.len() - first;
    let mut spelled = [0; 5];
    let mut last = 0;
    while length >= 0x80 {
        spelled[last] = length as u8 | 0x80;
        length >>= 7;
        last += 1;
    }
    spelled[last] = length as u8;
    out.splice(before..first, spelled[..=last].iter().copied());
}
