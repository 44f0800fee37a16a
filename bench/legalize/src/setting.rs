//! Setting one row: the cheapest sites for its cells in wanted order, and of these the leftmost.

use crate::floor::{Cell, Row};
use crate::measure::Measure;

/// A run of abutting cells: those from `first` to before `past`.
struct Cluster {
    first: usize,
    past: usize,
    site: i64,
    width: i64,
}

/// Sets rows, one at a time; it keeps its stack of clusters from row to row.
#[derive(Default)]
pub struct Setter {
    clusters: Vec<Cluster>,
}

impl Setter {
    /// Fills `sites` with the sites of the cells, which are in wanted order and have room in the row, and
    /// answers what these sites cost.
    pub fn set<M: Measure>(&mut self, row: &Row, cells: &[Cell], sites: &mut Vec<u16>) -> i64 {
        let left = i64::from(row.left);
        let right = i64::from(row.right);
        let clusters = &mut self.clusters;
        clusters.clear();
        for (index, cell) in cells.iter().enumerate() {
            let width = i64::from(cell.width);
            let mut last = Cluster {
                first: index,
                past: index + 1,
                site: i64::from(cell.wanted_site).min(right - width).max(left),
                width,
            };
            while let Some(before) =
                clusters.pop_if(|before| before.site + before.width > last.site)
            {
                let width = before.width + last.width;
                let members = &cells[before.first..last.past];
                let low = left.max(last.site - before.width);
                let high = before.site.min(right - width);
                last = Cluster {
                    first: before.first,
                    past: last.past,
                    site: best_site::<M>(members, low, high),
                    width,
                };
            }
            clusters.push(last);
        }
        sites.clear();
        let mut cost = 0;
        for cluster in clusters.iter() {
            let mut site = cluster.site;
            for cell in &cells[cluster.first..cluster.past] {
                sites.push(site as u16);
                cost += M::cost(cell.wanted_site.into(), cell.weight.into(), site);
                site += i64::from(cell.width);
            }
        }
        cost
    }
}

/// The least site from `low` on that is `high` or at which the cluster of these cells has no rise below 0.
fn best_site<M: Measure>(cells: &[Cell], mut low: i64, mut high: i64) -> i64 {
    while low < high {
        let middle = low + (high - low) / 2;
        if rise::<M>(cells, middle) < 0 {
            low = middle + 1;
        } else {
            high = middle;
        }
    }
    low
}

/// What a cluster of these cells costs more one site further right than at `site`.
fn rise<M: Measure>(cells: &[Cell], mut site: i64) -> i64 {
    let mut rise = 0;
    for cell in cells {
        rise += M::rise(cell.wanted_site.into(), cell.weight.into(), site);
        site += i64::from(cell.width);
    }
    rise
}
