//! The report against the sums over tickets (RULES.md, section 13).

use super::broken::{ensure, Fault, Law};
use super::standing::Standing;
use crate::transcript::Line;

pub fn check_report(standing: &Standing, first: &Line, second: &Line) -> Result<(), Fault> {
    let [accepted, done] = first.totals();
    let [out, left] = second.totals();
    let orders_left = standing.orders.len() as u64;
    let pieces_left = standing.orders.iter().map(|order| order.left).sum::<u64>();
    let law = |name: &str, told: u64, right: u64| {
        ensure(told == right, Law::Report, || {
            format!("{name} is told as {told} where {right} must be")
        })
    };
    law("orders left", first.small, orders_left)?;
    law("accepted", accepted, standing.accepted)?;
    law("done", done, standing.done)?;
    law("out", out, standing.out)?;
    law("left", left, pieces_left)?;
    law("the sum of done, out and left", done + out + left, accepted)
}
