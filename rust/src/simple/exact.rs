//! The greatest weight of a plan on the live edges, by the Hungarian method: rows come one by
//! one, each by a search over columns that keeps the least slack of every column.

use super::board::Board;

pub fn greatest_weight(board: &Board) -> i64 {
    let weights = live_weights(board);
    // The method wants no more rows than columns.
    let rows = if weights.len() > board.places.len() { transposed(&weights) } else { weights };
    greatest_sum(&rows)
}

/// A row per bidder, a column per place, 0 for no live edge.
fn live_weights(board: &Board) -> Vec<Vec<i64>> {
    let mut weights = vec![vec![0; board.places.len()]; board.bidders.len()];
    for (bidder, row) in board.bidders.iter().zip(&mut weights) {
        for edge in &bidder.edges {
            let item = board.item(edge.item);
            if !item.withdrawn {
                row[item.places.clone()].fill(edge.weight);
            }
        }
    }
    weights
}

fn transposed(rows: &[Vec<i64>]) -> Vec<Vec<i64>> {
    let columns = rows.first().map_or(0, Vec::len);
    (0..columns).map(|column| rows.iter().map(|row| row[column]).collect()).collect()
}

/// Rows and columns count from 1; column 0 has the row that is being placed.
struct Hungarian<'a> {
    weights: &'a [Vec<i64>],
    columns: usize,
    row_potential: Vec<i64>,
    column_potential: Vec<i64>,
    /// The row that a column has, 0 for none.
    row_of: Vec<usize>,
}

/// The greatest sum of cells, one of each row and no two of a column.
fn greatest_sum(weights: &[Vec<i64>]) -> i64 {
    let (rows, columns) = (weights.len(), weights.first().map_or(0, Vec::len));
    let mut hungarian = Hungarian {
        weights,
        columns,
        row_potential: vec![0; rows + 1],
        column_potential: vec![0; columns + 1],
        row_of: vec![0; columns + 1],
    };
    for row in 1..=rows {
        hungarian.place(row);
    }
    let row_of = hungarian.row_of;
    let taken = (1..=columns).filter(|&column| row_of[column] != 0);
    taken.map(|column| weights[row_of[column] - 1][column - 1]).sum()
}

impl Hungarian<'_> {
    /// Searches from the row to a free column; then each column of the path takes the row of
    /// the one before it.
    fn place(&mut self, row: usize) {
        self.row_of[0] = row;
        let mut slack = vec![i64::MAX; self.columns + 1];
        let mut before = vec![0; self.columns + 1];
        let mut used = vec![false; self.columns + 1];
        let mut column = 0;
        while self.row_of[column] != 0 {
            used[column] = true;
            let next = self.nearest(column, &used, &mut slack, &mut before);
            let step = slack[next];
            self.shift(step, &used, &mut slack);
            column = next;
        }
        while column != 0 {
            self.row_of[column] = self.row_of[before[column]];
            column = before[column];
        }
    }

    /// Compares what is known of each column with the way by this one; the unused column of
    /// least slack.
    fn nearest(
        &self,
        column: usize,
        used: &[bool],
        slack: &mut [i64],
        before: &mut [usize],
    ) -> usize {
        let row = self.row_of[column];
        let mut nearest = 0;
        for c in (1..=self.columns).filter(|&c| !used[c]) {
            // The cost of a cell is its weight, negated.
            let cost = -self.weights[row - 1][c - 1];
            let reduced = cost - self.row_potential[row] - self.column_potential[c];
            if reduced < slack[c] {
                slack[c] = reduced;
                before[c] = column;
            }
            if slack[c] < slack[nearest] {
                nearest = c;
            }
        }
        nearest
    }

    /// The used columns and their rows move by this step, and the others come so much nearer.
    fn shift(&mut self, step: i64, used: &[bool], slack: &mut [i64]) {
        for c in 0..=self.columns {
            if used[c] {
                self.row_potential[self.row_of[c]] += step;
                self.column_potential[c] -= step;
            } else {
                slack[c] -= step;
            }
        }
    }
}
