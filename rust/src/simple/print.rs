//! What is printed of a board.

use super::board::{Bidder, Board};
use super::exact::greatest_weight;

pub fn plan(board: &Board, bids: u64) -> String {
    let mut out = String::new();
    for (index, bidder) in board.bidders.iter().enumerate() {
        let item = bidder.place.map_or(0, |place| board.places[place].item);
        out += &format!("P\t{}\t{item}\t{}\n", index + 1, bidder.gain);
    }
    for (index, item) in board.items.iter().enumerate().filter(|(_, item)| !item.withdrawn) {
        let prices = board.places[item.places.clone()].iter().map(|place| place.price);
        out += &format!("Y\t{}\t{}\n", index + 1, prices.min().unwrap_or(0));
    }
    let weight: i64 = board.bidders.iter().map(|bidder| held(board, bidder)).sum();
    let prices: i64 = board.places.iter().map(|place| place.price).sum();
    let gains: i64 = board.bidders.iter().map(|bidder| bidder.gain).sum();
    out += &format!("T\t{weight}\t{}\t{bids}\n", prices + gains);
    out += &format!("E\t{}\n", greatest_weight(board));
    out
}

/// The weight of the edge that a bidder holds, 0 for none.
fn held(board: &Board, bidder: &Bidder) -> i64 {
    let Some(place) = bidder.place else {
        return 0;
    };
    let item = board.places[place].item;
    bidder.edges.iter().find(|edge| edge.item == item).map_or(0, |edge| edge.weight)
}
