//! A decoder of two layouts alone, those of samples/048-P1 and samples/034-P1, written by hand. The commands of `asterix` are
//! compared with it. It reads data blocks from standard input and walks over each record item by item to its last field. It adds
//! up the numbers of all fields (elements, spare bits, and the octets of explicit contents, modulo 2^64), and prints what it
//! counted. The first fault ends it, with the line and the status that `asterix canon` gives.
//!
//!     rustc -O decoder.rs
use std::fs::File;
use std::io::{self, Read};
use std::os::fd::AsFd;
use std::process::ExitCode;

/// A data block has at most 65,535 octets, so that each one fits.
const BUFFER: usize = 1 << 16;

/// A cause, and the bit at which it stands in the block.
struct Fault {
    bit: usize,
    cause: &'static str,
}

type Judged<T> = Result<T, Fault>;

fn fault<T>(bit: usize, cause: &'static str) -> Judged<T> {
    Err(Fault { bit, cause })
}

/// The slots of a presence field, from the greatest bit on: slot 1 is the greatest.
#[derive(Clone, Copy)]
struct Slots(u32);

impl Slots {
    const fn first(count: u32) -> Self {
        Slots(!(u32::MAX >> count))
    }

    /// Takes the first marked slot out.
    #[inline(always)]
    fn take(&mut self) -> Option<u32> {
        if self.0 == 0 {
            return None;
        }
        let slot = self.0.leading_zeros() + 1;
        self.0 &= u32::MAX >> slot;
        Some(slot)
    }
}

/// What was counted so far.
#[derive(Default)]
struct Counts {
    blocks: u64,
    opaque: u64,
    records: u64,
    items: u64,
    octets: u64,
    sum: u64,
}

/// A data block, how far it was read, and the sum of the fields up to there.
struct Reader<'a> {
    block: &'a [u8],
    at: usize,
    sum: u64,
}

impl Reader<'_> {
    /// The next N octets as one number.
    #[inline(always)]
    fn number<const N: usize>(&mut self) -> Judged<u64> {
        let Some(octets) = self.block[self.at..].first_chunk::<N>() else {
            return fault(self.at * 8, "RunsOut");
        };
        self.at += N;
        Ok(octets.iter().fold(0, |number, octet| number << 8 | u64::from(*octet)))
    }

    /// Adds the fields of a number; their widths are those of its bits, from the greatest on, down to the last `rest` bits.
    #[inline(always)]
    fn add_fields(&mut self, number: u64, widths: &[u32], rest: u32) {
        let mut below = widths.iter().sum::<u32>() + rest;
        for width in widths {
            below -= width;
            self.sum = self.sum.wrapping_add(number >> below & (u64::MAX >> (64 - width)));
        }
    }

    #[inline(always)]
    fn fixed<const N: usize>(&mut self, widths: &[u32]) -> Judged<()> {
        let number = self.number::<N>()?;
        self.add_fields(number, widths, 0);
        Ok(())
    }

    /// A part of one octet; whether another one follows.
    #[inline(always)]
    fn part(&mut self, widths: &[u32]) -> Judged<bool> {
        let octet = self.number::<1>()?;
        self.add_fields(octet, widths, 1);
        Ok(octet & 1 == 1)
    }

    #[inline(always)]
    fn two_parts(&mut self, first: &[u32], second: &[u32]) -> Judged<()> {
        if self.part(first)? && self.part(second)? {
            return fault(self.at * 8 - 1, "ExtensionPastEnd");
        }
        Ok(())
    }

    fn by_fx(&mut self) -> Judged<()> {
        while self.part(&[7])? {}
        Ok(())
    }

    #[inline(always)]
    fn counted<const N: usize>(&mut self, widths: &[u32]) -> Judged<()> {
        for _ in 0..self.number::<1>()? {
            self.fixed::<N>(widths)?;
        }
        Ok(())
    }

    fn explicit(&mut self) -> Judged<()> {
        let length = self.number::<1>()? as usize;
        if length == 0 {
            return fault(self.at * 8 - 8, "BadExplicitLength");
        }
        let Some(content) = self.block[self.at..].get(..length - 1) else {
            return fault(self.at * 8, "RunsOut");
        };
        self.sum = content.iter().fold(self.sum, |sum, octet| sum.wrapping_add(u64::from(*octet)));
        self.at += length - 1;
        Ok(())
    }

    /// The marked slots of a presence field that has at most so many octets.
    #[inline(always)]
    fn presence(&mut self, octets: u32, allowed: Slots) -> Judged<Slots> {
        let mut marked = 0;
        for index in 0..octets {
            let octet = self.number::<1>()? as u32;
            let marks = (octet >> 1) << (25 - 7 * index);
            let undefined = marks & !allowed.0;
            if undefined != 0 {
                let before = undefined.leading_zeros() - 7 * index;
                return fault(self.at * 8 - 8 + before as usize, "UndefinedSlot");
            }
            marked |= marks;
            if octet & 1 == 0 {
                return Ok(Slots(marked));
            }
        }
        fault(self.at * 8 - 1, "PresenceTooLong")
    }

    /// Plot characteristics: seven subitems of an octet each.
    fn plot(&mut self) -> Judged<()> {
        let mut marked = self.presence(1, Slots::first(7))?;
        while marked.take().is_some() {
            self.fixed::<1>(&[8])?;
        }
        Ok(())
    }

    fn doppler_speed(&mut self) -> Judged<()> {
        let mut marked = self.presence(1, Slots::first(2))?;
        while let Some(slot) = marked.take() {
            match slot {
                1 => self.fixed::<2>(&[16])?,
                _ => self.counted::<6>(&[48])?,
            }
        }
        Ok(())
    }

    /// The state or the mode of the radar's parts, which differ in the width of the last one.
    fn parts_of_radar(&mut self, last_is_wide: bool) -> Judged<()> {
        // Slots 2, 3 and 7 are spare.
        let mut marked = self.presence(1, Slots(0b1001_1100 << 24))?;
        while let Some(slot) = marked.take() {
            match slot {
                6 if last_is_wide => self.fixed::<2>(&[16])?,
                _ => self.fixed::<1>(&[8])?,
            }
        }
        Ok(())
    }

    /// The item in a slot of category 048.
    #[inline(always)]
    fn target_item(&mut self, slot: u32) -> Judged<()> {
        match slot {
            1 => self.fixed::<2>(&[8, 8]),
            2 | 8 => self.fixed::<3>(&[24]),
            3 => self.two_parts(&[3, 1, 1, 1, 1], &[1, 2, 1, 1, 2]),
            4 | 12 | 13 => self.fixed::<4>(&[16, 16]),
            5 => self.fixed::<2>(&[1, 1, 1, 1, 12]),
            6 => self.fixed::<2>(&[1, 1, 14]),
            7 => self.plot(),
            9 => self.fixed::<6>(&[48]),
            10 => self.counted::<8>(&[56, 4, 4]),
            11 => self.fixed::<2>(&[4, 12]),
            14 => self.two_parts(&[1, 2, 1, 1, 2], &[1, 1, 1, 1, 3]),
            15 | 18 => self.fixed::<4>(&[32]),
            16 => self.by_fx(),
            17 | 19 | 21 | 24 | 26 => self.fixed::<2>(&[16]),
            20 => self.doppler_speed(),
            22 => self.fixed::<7>(&[56]),
            23 | 25 => self.fixed::<1>(&[8]),
            _ => self.explicit(),
        }
    }

    /// The item in a slot of category 034.
    #[inline(always)]
    fn service_item(&mut self, slot: u32) -> Judged<()> {
        match slot {
            1 => self.fixed::<2>(&[8, 8]),
            2 | 4 | 10 => self.fixed::<1>(&[8]),
            3 => self.fixed::<3>(&[24]),
            5 | 12 => self.fixed::<2>(&[16]),
            6 => self.parts_of_radar(true),
            7 => self.parts_of_radar(false),
            8 => self.counted::<2>(&[5, 11]),
            9 | 11 => self.fixed::<8>(&[64]),
            _ => self.explicit(),
        }
    }

    fn target_report(&mut self) -> Judged<u64> {
        let mut marked = self.presence(4, Slots::first(28))?;
        let items = marked.0.count_ones();
        while let Some(slot) = marked.take() {
            self.target_item(slot)?;
        }
        Ok(u64::from(items))
    }

    fn service_message(&mut self) -> Judged<u64> {
        let mut marked = self.presence(2, Slots::first(14))?;
        let items = marked.0.count_ones();
        while let Some(slot) = marked.take() {
            self.service_item(slot)?;
        }
        Ok(u64::from(items))
    }
}

impl Counts {
    fn count(&mut self, block: &[u8]) -> Judged<()> {
        let mut reader = Reader { block, at: 3, sum: 0 };
        match block[0] {
            48 => self.count_records(&mut reader, Reader::target_report)?,
            34 => self.count_records(&mut reader, Reader::service_message)?,
            _ => self.opaque += 1,
        }
        self.blocks += 1;
        self.octets += block.len() as u64;
        self.sum = self.sum.wrapping_add(reader.sum);
        Ok(())
    }

    #[inline(always)]
    fn count_records<'a>(&mut self, reader: &mut Reader<'a>, record: impl Fn(&mut Reader<'a>) -> Judged<u64>) -> Judged<()> {
        while reader.at < reader.block.len() {
            self.items += record(reader)?;
            self.records += 1;
        }
        Ok(())
    }

    /// Counts the whole blocks that the octets begin with; how many octets those have.
    fn count_whole(&mut self, octets: &[u8]) -> Judged<usize> {
        let mut at = 0;
        while let [_, high, low, ..] = octets[at..] {
            let length = usize::from(u16::from_be_bytes([high, low]));
            if length < 4 {
                return fault(8, "BadLen");
            }
            let Some(block) = octets[at..].get(..length) else { break };
            self.count(block)?;
            at += length;
        }
        Ok(at)
    }

    /// Counts all blocks of an input. What is left after the whole blocks is moved to the buffer's begin before more is read.
    fn count_all(&mut self, input: &mut impl Read) -> io::Result<Judged<()>> {
        let mut buffer = vec![0; BUFFER];
        let mut filled = 0;
        loop {
            let more = input.read(&mut buffer[filled..])?;
            if more == 0 {
                return Ok(end_of_input(filled));
            }
            filled += more;
            let done = match self.count_whole(&buffer[..filled]) {
                Ok(done) => done,
                Err(fault) => return Ok(Err(fault)),
            };
            buffer.copy_within(done..filled, 0);
            filled -= done;
        }
    }
}

/// What the octets after the last whole block say, where no more come.
fn end_of_input(left: usize) -> Judged<()> {
    match left {
        0 => Ok(()),
        1 | 2 => fault(left * 8, "EndsInHeader"),
        _ => fault(left * 8, "EndsInBlock"),
    }
}

fn main() -> io::Result<ExitCode> {
    // The descriptor itself, as Stdin has a buffer of its own.
    let mut input = File::from(io::stdin().as_fd().try_clone_to_owned()?);
    let mut counts = Counts::default();
    if let Err(Fault { bit, cause }) = counts.count_all(&mut input)? {
        eprintln!("refused block {} bit {bit} {cause}", counts.blocks);
        return Ok(ExitCode::from(3));
    }
    let Counts { blocks, opaque, records, items, octets, sum } = counts;
    println!("blocks {blocks} opaque {opaque} records {records} items {items} octets {octets} sum {sum}");
    Ok(ExitCode::SUCCESS)
}
