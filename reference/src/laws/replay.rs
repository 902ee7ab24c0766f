//! The slips of one cross, each judged by what stands just before it.

use super::broken::{ensure, Fault, Law};
use super::edges::{edges_of_trade, Edge};
use super::figures;
use super::rank::{in_words, FirstRanked, Proposal, ReachedBy};
use super::sight::{Event, Part, Parties, Sight};
use super::standing::{Standing, StandingQuote};
use crate::transcript::Line;

/// How far a cross has come, as its slips tell.
#[derive(Clone, Copy, PartialEq, Eq)]
enum Stage {
    Trading,
    Halted,
    /// The ticket that went out last.
    Tail(u64),
}

/// What does not change during a cross.
pub struct Cross {
    pub letter: char,
    pub governing: StandingQuote,
    /// The opening ticket of the RFE that the cross ends.
    pub waiting_from: Option<u64>,
}

pub struct Replay<'a> {
    cross: Cross,
    standing: &'a mut Standing,
    watch: &'a mut dyn FnMut(Sight),
    stage: Stage,
    has_halted: bool,
}

impl<'a> Replay<'a> {
    /// Works off all slips of a cross, and tells whether it has halted the book.
    pub fn run(
        cross: Cross,
        slips: &[Line],
        standing: &'a mut Standing,
        watch: &'a mut dyn FnMut(Sight),
    ) -> Result<bool, Fault> {
        let mut replay = Replay {
            cross,
            standing,
            watch,
            stage: Stage::Trading,
            has_halted: false,
        };
        for slip in slips {
            replay.slip(slip)?;
        }
        Ok(replay.has_halted)
    }

    fn slip(&mut self, slip: &Line) -> Result<(), Fault> {
        match (slip.letter, slip.small) {
            (b'T', _) => self.trade(slip.fields),
            (b'G', 2) => self.outside_quote(slip),
            (b'G', 3) => self.execute_and_cancel(slip),
            (b'G', 4) => self.halt(slip),
            (letter, cause) => Err(Fault {
                law: Law::Causes,
                what: format!("slip {} with cause {cause} in a cross", letter as char),
            }),
        }
    }

    fn first_ranked(&self) -> FirstRanked {
        FirstRanked::of(self.standing, self.cross.waiting_from)
    }

    fn ensure_trading(&self) -> Result<(), Fault> {
        ensure(self.stage == Stage::Trading, Law::Tail, || {
            "only execute-and-cancel orders go out after a halt or in the tail".to_string()
        })
    }

    fn trade(&mut self, [price, pieces, buyer, seller]: [u64; 4]) -> Result<(), Fault> {
        self.ensure_trading()?;
        let first = self.first_ranked();
        let buy = named(first.buy, buyer, "buyer")?;
        let sell = named(first.sell, seller, "seller")?;
        self.check_price(price, buy, sell)?;
        self.check_rule_of_price(price, buy, sell, first.reached)?;
        let fewer = buy.left.min(sell.left);
        ensure(pieces == fewer, Law::Ledger, || {
            format!("{pieces} pieces traded where {fewer} must be")
        })?;
        self.check_asked(buy, sell)?;
        self.tell_trade(price, part_of(first.reached), parties(buy, sell));
        self.lower(buy, true, pieces);
        self.lower(sell, false, pieces);
        Ok(())
    }

    fn tell_trade(&mut self, price: u64, part: Part, parties: Parties) {
        let letter = self.cross.letter;
        (self.watch)(Sight::Call {
            letter,
            event: Event::Trades { part, parties },
        });
        let mut edges = edges_of_trade(self.standing, price);
        if part == Part::StepB && price == self.cross.governing.bid {
            edges.push(Edge::PairAtGoverningBid);
        }
        if part == Part::StepB && price == self.cross.governing.ask {
            edges.push(Edge::PairAtGoverningAsk);
        }
        for edge in edges {
            (self.watch)(Sight::AtEdge(edge));
        }
    }

    /// The laws of prices, of section 15.
    fn check_price(&self, price: u64, buy: Proposal, sell: Proposal) -> Result<(), Fault> {
        let told = |what: &str| format!("trade at {price}: {what}");
        let law = |holds, what: &'static str| ensure(holds, Law::Prices, || told(what));
        law(price <= buy.price, "above the buyer's price")?;
        law(price >= sell.price, "below the seller's price")?;
        law(
            !buy.is_quote || price == buy.price,
            "the quote buys at another price than its bid",
        )?;
        law(
            !sell.is_quote || price == sell.price,
            "the quote sells at another price than its ask",
        )?;
        law(self.is_governed(price), "outside the governing quote")?;
        let limits = self.standing.limits();
        let is_static = figures::is_within(price, limits.limit_1, self.standing.reference);
        law(is_static, "beyond Limit 1 of the reference")?;
        law(
            self.standing.is_within_limit_2(price),
            "beyond Limit 2 of the dynamic price",
        )
    }

    fn is_governed(&self, price: u64) -> bool {
        let governing = self.cross.governing;
        (governing.bid..=governing.ask).contains(&price)
    }

    /// In step A the price is the partner's, in step B that of the lower ticket.
    fn check_rule_of_price(
        &self,
        price: u64,
        buy: Proposal,
        sell: Proposal,
        reached: ReachedBy,
    ) -> Result<(), Fault> {
        let right = match reached {
            ReachedBy::Buys => sell.price,
            ReachedBy::Sells => buy.price,
            ReachedBy::None if buy.number < sell.number => buy.price,
            ReachedBy::None => sell.price,
        };
        ensure(price == right, Law::Prices, || {
            format!("trade at {price} where the rule gives {right}")
        })
    }

    /// An entered order neither trades with a flagged quote nor is halted by its price.
    fn check_asked(&self, one: Proposal, other: Proposal) -> Result<(), Fault> {
        let with_quote = one.is_quote || other.is_quote;
        let is_flagged = self.standing.quote.is_some_and(|quote| quote.flagged);
        let is_unasked = self.cross.letter == 'E' && with_quote && is_flagged;
        ensure(!is_unasked, Law::Phases, || {
            "an enter meets a flagged quote that was not asked".to_string()
        })
    }

    fn lower(&mut self, proposal: Proposal, buys: bool, pieces: u64) {
        if proposal.is_quote {
            self.standing.lower_quote(buys, pieces);
        } else {
            self.standing.lower_order(proposal.number, pieces);
            self.standing.done += pieces;
        }
    }

    /// Cause 2: the pair's price lies outside the governing quote.
    fn outside_quote(&mut self, slip: &Line) -> Result<(), Fault> {
        self.ensure_trading()?;
        let first = self.first_ranked();
        let (lower, higher) = crossed_pair(&first)?;
        let is_right = !self.is_governed(lower.price) && higher.number == slip.fields[0];
        ensure(is_right, Law::Causes, || {
            let [ticket, ..] = slip.fields;
            format!("cause 2 for ticket {ticket} of the pair {lower}, {higher}")
        })?;
        self.put_out(slip, Part::StepB)
    }

    /// Cause 3: the tail, with the lowest ticket first.
    fn execute_and_cancel(&mut self, slip: &Line) -> Result<(), Fault> {
        let [ticket, ..] = slip.fields;
        let is_in_order = match self.stage {
            Stage::Trading => !self.standing.is_quote_reached() && !self.standing.is_crossed(),
            Stage::Halted => true,
            Stage::Tail(last) => last < ticket,
        };
        let order = self.standing.order(ticket);
        let is_its_kind = order.is_some_and(|order| order.execute_and_cancel);
        ensure(is_in_order && is_its_kind, Law::Tail, || {
            format!("cause 3 for ticket {ticket} too early, out of order or of another kind")
        })?;
        self.stage = Stage::Tail(ticket);
        let part = if self.has_halted {
            Part::TailAfterHalt
        } else {
            Part::Tail
        };
        self.put_out(slip, part)
    }

    /// Cause 4: the price would be beyond Limit 2, and the quote goes too.
    fn halt(&mut self, slip: &Line) -> Result<(), Fault> {
        self.ensure_trading()?;
        let first = self.first_ranked();
        let (price, struck) = match (first.reached, first.buy, first.sell) {
            (ReachedBy::Buys, Some(taker), Some(partner))
            | (ReachedBy::Sells, Some(partner), Some(taker)) => {
                self.check_asked(taker, partner)?;
                (partner.price, taker)
            }
            _ => {
                let (lower, higher) = crossed_pair(&first)?;
                (lower.price, higher)
            }
        };
        let is_halting = self.is_governed(price) && !self.standing.is_within_limit_2(price);
        let is_right = is_halting && struck.number == slip.fields[0];
        ensure(is_right, Law::Causes, || {
            format!("cause 4 for ticket {} at price {price}", slip.fields[0])
        })?;
        self.stage = Stage::Halted;
        self.has_halted = true;
        self.standing.quote = None;
        self.put_out(slip, part_of(first.reached))
    }

    fn put_out(&mut self, slip: &Line, part: Part) -> Result<(), Fault> {
        let (letter, cause) = (self.cross.letter, slip.small);
        (self.watch)(Sight::Call {
            letter,
            event: Event::PutsOut { cause, part },
        });
        put_out(self.standing, slip)
    }
}

fn part_of(reached: ReachedBy) -> Part {
    match reached {
        ReachedBy::Buys | ReachedBy::Sells => Part::StepA,
        ReachedBy::None => Part::StepB,
    }
}

fn parties(buy: Proposal, sell: Proposal) -> Parties {
    match (buy.is_quote, sell.is_quote) {
        (true, _) => Parties::QuoteBuys,
        (_, true) => Parties::QuoteSells,
        _ => Parties::Orders,
    }
}

/// The first-ranked proposal, which must be the one that the slip names.
fn named(first: Option<Proposal>, ticket: u64, party: &str) -> Result<Proposal, Fault> {
    match first {
        Some(proposal) if proposal.named() == ticket => Ok(proposal),
        _ => Err(Fault {
            law: Law::Rank,
            what: format!(
                "the {party} is {ticket}, but first-ranked is {}",
                in_words(first)
            ),
        }),
    }
}

/// The first-ranked buy and sell, the lower number before the higher.
fn crossed_pair(first: &FirstRanked) -> Result<(Proposal, Proposal), Fault> {
    match (first.buy, first.sell) {
        (Some(buy), Some(sell)) if buy.price >= sell.price && first.reached == ReachedBy::None => {
            Ok(if buy.number < sell.number {
                (buy, sell)
            } else {
                (sell, buy)
            })
        }
        _ => Err(Fault {
            law: Law::Causes,
            what: "an order is put out of a pair, but no pair can trade".to_string(),
        }),
    }
}

/// An order leaves with all that it has left.
pub fn put_out(standing: &mut Standing, slip: &Line) -> Result<(), Fault> {
    let [ticket, pieces, ..] = slip.fields;
    let left = standing.order(ticket).map(|order| order.left);
    ensure(left == Some(pieces), Law::Ledger, || {
        let left = left.unwrap_or(0);
        format!("{pieces} pieces of ticket {ticket} go out, but {left} are left")
    })?;
    standing.lower_order(ticket, pieces);
    standing.out += pieces;
    Ok(())
}
