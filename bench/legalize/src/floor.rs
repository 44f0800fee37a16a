//! The floor: rows, the cells that stand on them, and the calls.

use std::marker::PhantomData;
use std::mem;

use crate::measure::Measure;
use crate::setting::Setter;

const LARGEST_LINE: u16 = 4_095;
const LARGEST_WIDTH: u16 = 1_000;
const LARGEST_WEIGHT: u16 = 1_000;
const MOST_ROWS: usize = 64;
const MOST_CELLS: usize = 1_024;

/// A refusal by its number.
pub type Refusal = u32;

#[derive(Clone, Copy)]
pub struct Cell {
    pub number: u16,
    pub wanted_site: u16,
    pub wanted_line: u16,
    pub width: u16,
    pub weight: u16,
}

impl Cell {
    fn check(&self) -> Result<(), Refusal> {
        if self.wanted_line > LARGEST_LINE {
            Err(1)
        } else if self.width == 0 || self.width > LARGEST_WIDTH {
            Err(2)
        } else if self.weight == 0 || self.weight > LARGEST_WEIGHT {
            Err(3)
        } else {
            Ok(())
        }
    }

    /// Cells are wanted in the order of this key.
    fn wanted(&self) -> (u16, u16) {
        (self.wanted_site, self.number)
    }

    fn line_cost<M: Measure>(&self, line: u16) -> i64 {
        M::cost(self.wanted_line.into(), self.weight.into(), line.into())
    }
}

/// The sites from `left` to before `right` on a line.
#[derive(Clone, Copy)]
pub struct Row {
    pub line: u16,
    pub left: u16,
    pub right: u16,
}

/// A row with its cells in wanted order, their sites and what these cost.
struct Filled {
    row: Row,
    cells: Vec<Cell>,
    sites: Vec<u16>,
    width: u32,
    cost: i64,
}

/// Where a cell was seated, and how much more the floor costs.
pub struct Seat {
    pub line: u16,
    pub site: u16,
    pub rise: i64,
}

/// What is best for a cell: the place of a row in the table, the place of the cell in the row, and the rise.
struct Choice {
    row: usize,
    place: usize,
    rise: i64,
    cost: i64,
}

pub struct Floor<M> {
    rows: Vec<Filled>,
    standing: usize,
    setter: Setter,
    cells: Vec<Cell>,
    sites: Vec<u16>,
    best_sites: Vec<u16>,
    measure: PhantomData<M>,
}

impl<M: Measure> Floor<M> {
    pub fn new() -> Self {
        Floor {
            rows: Vec::new(),
            standing: 0,
            setter: Setter::default(),
            cells: Vec::new(),
            sites: Vec::new(),
            best_sites: Vec::new(),
            measure: PhantomData,
        }
    }

    pub fn add_row(&mut self, row: Row) -> Result<(), Refusal> {
        if row.line > LARGEST_LINE || row.left >= row.right {
            return Err(9);
        }
        if self.rows.len() == MOST_ROWS {
            return Err(10);
        }
        let shares = |other: &Row| {
            row.line == other.line && row.left < other.right && other.left < row.right
        };
        if self.rows.iter().any(|other| shares(&other.row)) {
            return Err(11);
        }
        let place = self
            .rows
            .partition_point(|other| (other.row.line, other.row.left) < (row.line, row.left));
        self.rows.insert(
            place,
            Filled {
                row,
                cells: Vec::new(),
                sites: Vec::new(),
                width: 0,
                cost: 0,
            },
        );
        Ok(())
    }

    /// Seats the cell on the row that it makes dearer by the least.
    pub fn place(&mut self, cell: Cell) -> Result<Seat, Refusal> {
        let choice = self.choose(&cell)?;
        let row = &mut self.rows[choice.row];
        row.cells.insert(choice.place, cell);
        row.width += u32::from(cell.width);
        row.cost = choice.cost;
        mem::swap(&mut row.sites, &mut self.best_sites);
        self.standing += 1;
        Ok(Seat {
            line: row.row.line,
            site: row.sites[choice.place],
            rise: choice.rise,
        })
    }

    /// What placing the cell would answer.
    pub fn try_place(&mut self, cell: Cell) -> Result<Seat, Refusal> {
        let choice = self.choose(&cell)?;
        let line = self.rows[choice.row].row.line;
        Ok(Seat {
            line,
            site: self.best_sites[choice.place],
            rise: choice.rise,
        })
    }

    /// Takes the cell of this number off the floor, and sets its row again.
    pub fn withdraw(&mut self, number: u16) -> Result<(), Refusal> {
        let (row, place) = self.find(number).ok_or(8u32)?;
        let row = &mut self.rows[row];
        let cell = row.cells.remove(place);
        row.width -= u32::from(cell.width);
        row.cost = self.setter.set::<M>(&row.row, &row.cells, &mut row.sites);
        self.standing -= 1;
        Ok(())
    }

    /// The standing cells in row order and then by site: each cell with its line and site.
    pub fn seats(&self) -> impl Iterator<Item = (&Cell, u16, u16)> {
        self.rows.iter().flat_map(|row| {
            row.cells
                .iter()
                .zip(&row.sites)
                .map(|(cell, &site)| (cell, row.row.line, site))
        })
    }

    /// What all standing cells cost, their lines too.
    pub fn cost(&self) -> i64 {
        let sites: i64 = self.rows.iter().map(|row| row.cost).sum();
        let lines: i64 = self
            .seats()
            .map(|(cell, line, _)| cell.line_cost::<M>(line))
            .sum();
        sites + lines
    }

    /// The row of least rise, or why the cell cannot be placed; `best_sites` then has the sites of its cells.
    fn choose(&mut self, cell: &Cell) -> Result<Choice, Refusal> {
        cell.check()?;
        if self.find(cell.number).is_some() {
            return Err(5);
        }
        if self.standing == MOST_CELLS {
            return Err(6);
        }
        let mut best: Option<Choice> = None;
        for (index, row) in self.rows.iter().enumerate() {
            if row.width + u32::from(cell.width) > u32::from(row.row.right - row.row.left) {
                continue;
            }
            let place = row
                .cells
                .partition_point(|other| other.wanted() < cell.wanted());
            self.cells.clear();
            self.cells.extend_from_slice(&row.cells[..place]);
            self.cells.push(*cell);
            self.cells.extend_from_slice(&row.cells[place..]);
            let cost = self.setter.set::<M>(&row.row, &self.cells, &mut self.sites);
            let rise = cost - row.cost + cell.line_cost::<M>(row.row.line);
            if best.as_ref().is_none_or(|best| rise < best.rise) {
                best = Some(Choice {
                    row: index,
                    place,
                    rise,
                    cost,
                });
                mem::swap(&mut self.sites, &mut self.best_sites);
            }
        }
        best.ok_or(7)
    }

    /// The row of the cell of this number, and the cell's place in the row.
    fn find(&self, number: u16) -> Option<(usize, usize)> {
        self.rows.iter().enumerate().find_map(|(index, row)| {
            let place = row.cells.iter().position(|cell| cell.number == number)?;
            Some((index, place))
        })
    }
}
