//! The job format: bytes in, records out.

use crate::floor::{Cell, Row};

pub const LARGEST_JOB: usize = 65_535;

/// One record of a job.
pub enum Record<'a> {
    Row(Row),
    Place(Cell, &'a [u8]),
    Withdraw(u16),
    Try(Cell, &'a [u8]),
}

/// Why a record cannot be read: the refusal's number, and the place of the byte that is to blame.
pub struct Fault {
    pub number: u32,
    pub place: usize,
}

/// Reads the records of a job one after another. After a fault it must not be asked again.
pub struct Reader<'a> {
    job: &'a [u8],
    place: usize,
}

impl<'a> Reader<'a> {
    /// The records behind the job's first byte.
    pub fn new(job: &'a [u8]) -> Self {
        Reader { job, place: 1 }
    }

    /// The next record, or none at the job's end.
    pub fn next(&mut self) -> Option<Result<Record<'a>, Fault>> {
        (self.place < self.job.len()).then(|| self.record())
    }

    fn record(&mut self) -> Result<Record<'a>, Fault> {
        let kind = self.byte()?;
        let (required, known) = match kind {
            1 => (0b100, 0b111),
            2 | 4 => (0b1001, 0b11_1111),
            3 => (0b1, 0b1),
            _ => return Err(self.fault_behind(16)),
        };
        let map = self.byte()?;
        if map & required != required || map & !known != 0 {
            return Err(self.fault_behind(17));
        }
        match kind {
            1 => Ok(Record::Row(Row {
                line: self.field(map, 0, 0)?,
                left: self.field(map, 1, 0)?,
                right: self.field(map, 2, 0)?,
            })),
            3 => Ok(Record::Withdraw(self.field(map, 0, 0)?)),
            _ => {
                let cell = Cell {
                    number: self.field(map, 0, 0)?,
                    wanted_site: self.field(map, 1, 0)?,
                    wanted_line: self.field(map, 2, 0)?,
                    width: self.field(map, 3, 0)?,
                    weight: self.field(map, 4, 1)?,
                };
                let name = if map & 0b10_0000 != 0 {
                    self.name()?
                } else {
                    &[]
                };
                Ok(if kind == 2 {
                    Record::Place(cell, name)
                } else {
                    Record::Try(cell, name)
                })
            }
        }
    }

    /// The field of this bit: two bytes, or `absent` where the bit does not stand in the map.
    fn field(&mut self, map: u8, bit: u32, absent: u16) -> Result<u16, Fault> {
        if map & (1 << bit) == 0 {
            return Ok(absent);
        }
        let low = self.byte()?;
        let high = self.byte()?;
        Ok(u16::from_le_bytes([low, high]))
    }

    fn name(&mut self) -> Result<&'a [u8], Fault> {
        let length = self.byte()?;
        if length == 0 {
            return Err(self.fault_behind(18));
        }
        let start = self.place;
        for _ in 0..length {
            if !self.byte()?.is_ascii_graphic() {
                return Err(self.fault_behind(18));
            }
        }
        Ok(&self.job[start..self.place])
    }

    fn byte(&mut self) -> Result<u8, Fault> {
        match self.job.get(self.place) {
            Some(&byte) => {
                self.place += 1;
                Ok(byte)
            }
            None => Err(Fault {
                number: 15,
                place: self.job.len(),
            }),
        }
    }

    /// The fault of the byte that was just read.
    fn fault_behind(&self, number: u32) -> Fault {
        Fault {
            number,
            place: self.place - 1,
        }
    }
}
