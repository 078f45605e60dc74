//! Counts the bids of the dense texts and of twenty histories, as they were until R-7 of
//! document 02 and since.

use noughtelm_tests::model::auction::Slack;
use noughtelm_tests::wars::{wars, Bids};

fn main() {
    println!(
        "                          items places bidders edges   slack   until R-7   since   of 100"
    );
    let mut all = Bids { until: 0, since: 0 };
    for (index, war) in wars().iter().enumerate() {
        let ([items, places, bidders, edges], Slack { p, q }) = (war.size(), war.history.slack);
        let Bids { until, since } = war.bids();
        print!("{:<26}{items:>5}{places:>7}{bidders:>8}{edges:>6}", war.name);
        println!("{:>8}{until:>12}{since:>8}{:>9}", format!("{p}/{q}"), 100 * since / until);
        if index >= 2 {
            all = Bids { until: all.until + until, since: all.since + since };
        }
    }
    let Bids { until, since } = all;
    println!("{:<60}{until:>12}{since:>8}{:>9}", "the twenty in all", 100 * since / until);
}
