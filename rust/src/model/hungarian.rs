//! A matching of greatest weight with a cover of equal sum, where an item has places and
//! its price counts once for each.
//!
//! Rows are bidders, columns items, 0 is no edge. The solver is the assignment
//! method of least cost with potentials, over the places and one more dummy
//! column than there are rows: a row at a dummy is unplaced. One dummy always
//! stays free, at potential 0, so no gain is negative and no dummy has a price.
//! An item's price is the least of its places'. A cover by places covers with it
//! too, and no sum is below the weight, so the places of an item have one price.

#[derive(Clone, Debug, PartialEq, Eq)]
pub struct Exact {
    pub weight: u64,
    pub matching: Vec<u64>,
    pub price: Vec<u64>,
    pub gain: Vec<u64>,
}

/// Potentials with `row[i] + column[j] <= cost(i, j)`; column 0 stands for the
/// row to be placed, real columns count from 1. `at[j]` is the row at column j,
/// rows from 1, 0 for none.
struct Assignment<'a> {
    weights: &'a [Vec<u64>],
    /// The item of each place, from 0.
    items: Vec<usize>,
    row: Vec<i64>,
    column: Vec<i64>,
    at: Vec<usize>,
}

impl Assignment<'_> {
    fn cost(&self, row: usize, column: usize) -> i64 {
        match self.items.get(column - 1) {
            Some(&item) => -(self.weights[row - 1][item] as i64),
            None => 0,
        }
    }

    /// Places one more row, along the cheapest alternating path.
    fn place(&mut self, row: usize) {
        let columns = self.column.len();
        let mut least = vec![i64::MAX; columns];
        let mut from = vec![0; columns];
        let mut seen = vec![false; columns];
        self.at[0] = row;
        let mut here = 0;
        while self.at[here] != 0 {
            seen[here] = true;
            let row = self.at[here];
            for j in (1..columns).filter(|&j| !seen[j]) {
                let excess = self.cost(row, j) - self.row[row] - self.column[j];
                if excess < least[j] {
                    least[j] = excess;
                    from[j] = here;
                }
            }
            let next = (1..columns).filter(|&j| !seen[j]).min_by_key(|&j| least[j]);
            let next = next.expect("a dummy column is always free");
            self.shift(least[next], &seen, &mut least);
            here = next;
        }
        while here != 0 {
            self.at[here] = self.at[from[here]];
            here = from[here];
        }
    }

    fn shift(&mut self, by: i64, seen: &[bool], least: &mut [i64]) {
        for j in 0..seen.len() {
            if seen[j] {
                self.row[self.at[j]] += by;
                self.column[j] -= by;
            } else if j > 0 {
                least[j] -= by;
            }
        }
    }
}

/// The item of each place where the items have so many, from 0.
pub fn items_by_place(counts: &[u64]) -> Vec<usize> {
    let places = |(item, &count): (usize, &u64)| vec![item; count as usize];
    counts.iter().enumerate().flat_map(places).collect()
}

/// The greatest weight with a matching and a whole-number cover that have it, where the
/// items have so many places.
pub fn solve(weights: &[Vec<u64>], counts: &[u64]) -> Exact {
    let rows = weights.len();
    let items = items_by_place(counts);
    let columns = 1 + items.len() + rows + 1;
    let mut a = Assignment {
        weights,
        items,
        row: vec![0; rows + 1],
        column: vec![0; columns],
        at: vec![0; columns],
    };
    (1..=rows).for_each(|row| a.place(row));
    let mut matching = vec![0; rows];
    let mut price = vec![u64::MAX; counts.len()];
    let mut weight = 0;
    for (place, &item) in a.items.iter().enumerate() {
        let row = a.at[place + 1];
        if row != 0 && weights[row - 1][item] != 0 {
            matching[row - 1] = item as u64 + 1;
            weight += weights[row - 1][item];
        }
        price[item] = price[item].min((-a.column[place + 1]) as u64);
    }
    let gain = a.row[1..].iter().map(|&u| (-u) as u64).collect();
    Exact { weight, matching, price, gain }
}
