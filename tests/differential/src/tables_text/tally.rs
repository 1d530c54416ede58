//! What the rounds have reached, and whether anything is missing.
use super::cells::Cells;
use super::sights::{Read, Wrote, OF_READINGS, OF_WRITINGS};
use crate::outcome::Out;
use generate::layout::refusal;

/// The answers that the writer and the reader can give.
const OF_WRITER: [u32; 4] = [refusal::ACCEPTED, refusal::BAD_LENGTH, refusal::NOT_WELL_FORMED, refusal::TOO_SHORT];
const OF_READER: [u32; 4] = [refusal::ACCEPTED, refusal::BAD_LENGTH, refusal::NOT_WELL_FORMED, refusal::NOT_A_REQUEST];

/// Counts by answer.
type Answers = [u64; refusal::NOT_A_REQUEST as usize + 1];

/// Counts of what was seen.
pub struct Tally {
    written: Answers,
    read: Answers,
    cells: Cells,
    of_writings: [u64; OF_WRITINGS.len()],
    of_readings: [u64; OF_READINGS.len()],
}

impl Tally {
    /// Nothing is reached yet.
    pub fn new() -> Tally {
        Tally {
            written: Answers::default(),
            read: Answers::default(),
            cells: Cells::new(),
            of_writings: [0; OF_WRITINGS.len()],
            of_readings: [0; OF_READINGS.len()],
        }
    }

    /// How many calls were made of either desk.
    pub fn calls(&self) -> u64 {
        self.written.iter().chain(&self.read).sum()
    }

    /// How many cells of the line rules were reached.
    pub fn reached(&self) -> usize {
        self.cells.reached()
    }

    /// Counts a writing.
    pub fn wrote(&mut self, wrote: &Wrote) {
        self.written[wrote.reply.answer as usize] += 1;
        for (count, (_, is_seen)) in self.of_writings.iter_mut().zip(&OF_WRITINGS) {
            *count += u64::from(is_seen(wrote));
        }
    }

    /// Counts a reading.
    pub fn read(&mut self, read: &Read) {
        self.read[read.reply.answer as usize] += 1;
        if let (Err(bad), refusal::NOT_A_REQUEST) = (read.read, read.reply.answer) {
            self.cells.count(bad);
        }
        for (count, (_, is_seen)) in self.of_readings.iter_mut().zip(&OF_READINGS) {
            *count += u64::from(is_seen(read));
        }
    }

    /// All that must be seen besides the cells, with how often it was.
    fn sights(&self) -> Vec<(String, u64)> {
        let answers = |call: &'static str, given: &[u32], counts: &Answers| -> Vec<(String, u64)> {
            given.iter().map(|answer| (format!("{}: answer {}", call, answer), counts[*answer as usize])).collect()
        };
        let writings = OF_WRITINGS.iter().map(|(name, _)| format!("write: {}", name)).zip(self.of_writings);
        let readings = OF_READINGS.iter().map(|(name, _)| format!("read: {}", name)).zip(self.of_readings);
        let mut all = answers("write", &OF_WRITER, &self.written);
        all.extend(answers("read", &OF_READER, &self.read));
        all.extend(writings.chain(readings));
        all
    }

    /// Writes what was counted.
    pub fn print(&self, out: Out) {
        self.cells.print(out);
        for (name, count) in self.sights() {
            out.line(format_args!("{:>7} {}", count, name));
        }
    }

    /// Names what should have been seen and was not, or was and can't be; gives the number.
    pub fn name_amiss(&self, out: Out) -> u64 {
        let unseen: Vec<String> =
            self.sights().into_iter().filter(|(_, count)| *count == 0).map(|(name, _)| name).collect();
        for name in &unseen {
            out.line(format_args!("not reached: {}", name));
        }
        self.cells.name_amiss(out) + unseen.len() as u64
    }
}
