//! Accepted calls, letter by letter: what they change, and the laws after them.

use super::broken::{ensure, Fault, Law};
use super::figures;
use super::rank::{in_words, FirstRanked, ReachedBy};
use super::replay::{put_out, Cross, Replay};
use super::sight::{Event, Part, Rare, Sight};
use super::standing::{Phase, Standing, StandingOrder, StandingQuote};
use crate::transcript::Line;

const HALT_SECONDS: u64 = 120;
const MOST_SLIPS: usize = 129;
/// From how many on orders are many. For counting only.
const MANY: usize = 20;

/// An accepted call, as the records tell it.
pub struct Accepted<'a> {
    pub letter: char,
    pub asked: Line,
    pub slips: &'a [Line],
    pub answer: Line,
}

/// A day that an accepted O has opened.
pub fn open(asked: &Line, watch: &mut dyn FnMut(Sight)) -> Standing {
    let [reference, ranking, ..] = asked.fields;
    let sheet = char::from(asked.mark);
    let row = figures::row_of(reference);
    watch(Sight::Opened { sheet, ranking });
    watch(Sight::ReferenceRow { sheet, row });
    Standing {
        is_investment: sheet == 'I',
        is_by_size: ranking == 2,
        reference,
        reply_time: asked.small,
        clock: 0,
        dynamic: reference,
        phase: Phase::Dark,
        quote: None,
        orders: Vec::new(),
        numbers_given: 0,
        accepted: 0,
        done: 0,
        out: 0,
        may_be_crossed: false,
    }
}

/// The day while one accepted call is judged.
pub struct Day<'a> {
    pub standing: &'a mut Standing,
    pub watch: &'a mut dyn FnMut(Sight),
}

impl Day<'_> {
    pub fn accepted(&mut self, call: &Accepted) -> Result<(), Fault> {
        let from = self.standing.phase.letter();
        let number = match call.letter {
            'E' => self.enter(call)?,
            'C' => self.cancel(call)?,
            'Q' => self.quote(call)?,
            'V' => self.validate(call)?,
            'T' => self.clock(call)?,
            'W' => self.withdraw(call)?,
            'R' => self.renew(call)?,
            _ => self.decline(call)?,
        };
        self.check_answer(call, number)?;
        self.check_what_stands()?;
        let to = self.standing.phase.letter();
        (self.watch)(Sight::Call {
            letter: call.letter,
            event: Event::Moves { from, to },
        });
        Ok(())
    }

    fn enter(&mut self, call: &Accepted) -> Result<u64, Fault> {
        let [price, pieces, ..] = call.asked.fields;
        let ticket = self.next_number();
        self.standing.accepted += pieces;
        self.standing.orders.push(StandingOrder {
            ticket,
            sender: call.asked.small,
            buys: matches!(call.asked.mark, b'B' | b'b'),
            price,
            left: pieces,
            execute_and_cancel: matches!(call.asked.mark, b'b' | b's'),
        });
        if self.standing.orders.len() == 128 {
            (self.watch)(Sight::Rare(Rare::AllPlacesTaken));
        }
        if self.standing.phase == Phase::Lit {
            let phase = self.cross(call.letter, None, call.slips)?;
            self.standing.phase = match call.answer.mark {
                b'R' => self.opened_rfe(ticket, call.slips)?,
                _ => phase,
            };
        } else {
            no_slips(call)?;
        }
        Ok(ticket)
    }

    /// An RFE opens only for the entered order, and only if a flagged quote is its partner.
    fn opened_rfe(&mut self, ticket: u64, slips: &[Line]) -> Result<Phase, Fault> {
        let first = FirstRanked::of(self.standing, None);
        let (taker, partner) = match first.reached {
            ReachedBy::Buys => (first.buy, first.sell),
            ReachedBy::Sells => (first.sell, first.buy),
            ReachedBy::None => (None, None),
        };
        let is_flagged = self.standing.quote.is_some_and(|quote| quote.flagged);
        let is_for_entered = taker.is_some_and(|taker| taker.number == ticket);
        let is_with_quote = partner.is_some_and(|partner| partner.is_quote);
        let are_all_trades = slips.iter().all(|slip| slip.letter == b'T');
        let is_right = is_flagged && is_for_entered && is_with_quote && are_all_trades;
        ensure(is_right, Law::Phases, || {
            let (taker, partner) = (in_words(taker), in_words(partner));
            format!("an RFE opens for taker {taker}, partner {partner}, flagged: {is_flagged}")
        })?;
        if !slips.is_empty() {
            (self.watch)(Sight::Rare(Rare::RfeOpenedAfterTradesOfTheSameCall));
        }
        Ok(Phase::Asking {
            opening: ticket,
            due: self.standing.clock + self.standing.reply_time,
        })
    }

    fn cancel(&mut self, call: &Accepted) -> Result<u64, Fault> {
        let [ticket, ..] = call.asked.fields;
        let Some((first, rest)) = call.slips.split_first() else {
            return Err(Fault {
                law: Law::Causes,
                what: "a cancel without a slip".to_string(),
            });
        };
        let is_cancel = (first.letter, first.small, first.fields[0]) == (b'G', 1, ticket);
        ensure(is_cancel, Law::Causes, || {
            format!("the first slip of a cancel of {ticket} is {first}")
        })?;
        put_out(self.standing, first)?;
        let part = Part::BeforeCross;
        (self.watch)(Sight::Call {
            letter: call.letter,
            event: Event::PutsOut { cause: 1, part },
        });
        let opening = self.standing.phase.opening_ticket();
        if opening.is_some() && !self.standing.is_quote_reached() {
            self.standing.phase = self.cross(call.letter, opening, rest)?;
        } else {
            no_further_slips(rest)?;
            if opening == Some(ticket) {
                (self.watch)(Sight::Rare(Rare::RfeGoesOnWithoutItsOpener));
            }
        }
        Ok(0)
    }

    fn quote(&mut self, call: &Accepted) -> Result<u64, Fault> {
        let number = self.next_number();
        self.standing.quote = Some(quote_asked(call, number));
        self.standing.may_be_crossed = false;
        self.standing.phase = self.cross(call.letter, None, call.slips)?;
        Ok(number)
    }

    fn validate(&mut self, call: &Accepted) -> Result<u64, Fault> {
        let asked = self.standing.quote.expect("a quote stands in an RFE");
        let (number, quote) = (asked.number, quote_asked(call, asked.number));
        if (asked.bid, asked.ask) != (quote.bid, quote.ask) {
            (self.watch)(Sight::Rare(Rare::ValidatedWithOtherPrices));
        }
        self.standing.quote = Some(quote);
        let opening = self.standing.phase.opening_ticket();
        self.standing.phase = self.cross(call.letter, opening, call.slips)?;
        Ok(number)
    }

    fn clock(&mut self, call: &Accepted) -> Result<u64, Fault> {
        let seconds = call.asked.small;
        self.standing.clock = seconds;
        match self.standing.phase {
            Phase::Asking { due, .. } if seconds >= due => return self.end_rfe(call),
            Phase::Halted { over } if seconds >= over => self.standing.phase = Phase::Dark,
            _ => {}
        }
        no_slips(call)?;
        Ok(0)
    }

    fn withdraw(&mut self, call: &Accepted) -> Result<u64, Fault> {
        if self.standing.phase == Phase::Lit {
            self.standing.quote = None;
            self.standing.phase = Phase::Dark;
            no_slips(call)?;
            return Ok(0);
        }
        self.end_rfe(call)
    }

    fn decline(&mut self, call: &Accepted) -> Result<u64, Fault> {
        if self.standing.phase.opening_ticket().is_none() {
            no_slips(call)?;
            return Ok(0);
        }
        self.end_rfe(call)
    }

    fn renew(&mut self, call: &Accepted) -> Result<u64, Fault> {
        if let Some(quote) = self.standing.quote {
            self.standing.dynamic = (quote.bid + quote.ask) / 2;
        }
        no_slips(call)?;
        Ok(0)
    }

    /// The asked quote is removed before the cross, and governs it.
    fn end_rfe(&mut self, call: &Accepted) -> Result<u64, Fault> {
        let opening = self.standing.phase.opening_ticket();
        let removed = self.standing.quote.take();
        self.standing.phase = self.governed_cross(call.letter, removed, opening, call.slips)?;
        Ok(0)
    }

    fn cross(
        &mut self,
        letter: char,
        waiting_from: Option<u64>,
        slips: &[Line],
    ) -> Result<Phase, Fault> {
        self.governed_cross(letter, self.standing.quote, waiting_from, slips)
    }

    /// Goes through the slips of a cross, and tells the phase that must follow.
    fn governed_cross(
        &mut self,
        letter: char,
        governing: Option<StandingQuote>,
        waiting_from: Option<u64>,
        slips: &[Line],
    ) -> Result<Phase, Fault> {
        if waiting_from.is_some_and(|opening| self.do_many_wait(opening)) {
            (self.watch)(Sight::Rare(Rare::RfeEndsWithManyWaitingOnBothSides));
        }
        let cross = Cross {
            letter,
            governing: governing.expect("a quote stands in this phase"),
            waiting_from,
        };
        if Replay::run(cross, slips, self.standing, self.watch)? {
            self.standing.may_be_crossed = true;
            let over = self.standing.clock + HALT_SECONDS;
            return Ok(Phase::Halted { over });
        }
        Ok(match self.standing.quote {
            Some(_) => Phase::Lit,
            None => Phase::Dark,
        })
    }

    fn do_many_wait(&self, opening: u64) -> bool {
        let waiting = |buys| {
            let orders = self.standing.orders.iter();
            orders
                .filter(|order| order.buys == buys && order.ticket >= opening)
                .count()
        };
        waiting(true) >= MANY && waiting(false) >= MANY
    }

    fn next_number(&mut self) -> u64 {
        self.standing.numbers_given += 1;
        self.standing.numbers_given
    }

    fn check_answer(&mut self, call: &Accepted, number: u64) -> Result<(), Fault> {
        let answer = call.answer;
        let slips = call.slips.len();
        ensure(slips <= MOST_SLIPS, Law::Answers, || {
            format!("{slips} slips in one call")
        })?;
        if slips == MOST_SLIPS {
            (self.watch)(Sight::Rare(Rare::LongestSlipList));
        }
        ensure(answer.small == slips as u64, Law::Answers, || {
            format!("the answer counts {} slips of {slips}", answer.small)
        })?;
        let [told_number, dynamic, opening, _] = answer.fields;
        ensure(told_number == number, Law::Numbers, || {
            format!("number {told_number} where {number} must be")
        })?;
        ensure(dynamic == self.standing.dynamic, Law::Answers, || {
            format!(
                "dynamic price {dynamic} where {} must be",
                self.standing.dynamic
            )
        })?;
        let phase = self.standing.phase;
        let right_opening = phase.opening_ticket().unwrap_or(0);
        let is_right = char::from(answer.mark) == phase.letter() && opening == right_opening;
        ensure(is_right, Law::Phases, || {
            let told = answer.mark as char;
            format!("phase {told} with opening ticket {opening} where {phase:?} must be")
        })
    }

    /// Outside an RFE nothing stands that could trade, and no execute-and-cancel order.
    fn check_what_stands(&self) -> Result<(), Fault> {
        let standing = &self.standing;
        if standing.phase.opening_ticket().is_some() {
            return Ok(());
        }
        let has_passing = standing.orders.iter().any(|order| order.execute_and_cancel);
        ensure(!has_passing, Law::Tail, || {
            "an execute-and-cancel order stands outside an RFE".to_string()
        })?;
        let is_quiet = !standing.is_crossed() && !standing.is_quote_reached();
        ensure(is_quiet || standing.may_be_crossed, Law::Quiet, || {
            "orders stand that could trade".to_string()
        })
    }
}

fn quote_asked(call: &Accepted, number: u64) -> StandingQuote {
    let [bid, bid_left, ask, ask_left] = call.asked.fields;
    StandingQuote {
        number,
        bid,
        bid_left,
        ask,
        ask_left,
        flagged: call.asked.mark == b'F',
    }
}

fn no_slips(call: &Accepted) -> Result<(), Fault> {
    no_further_slips(call.slips)
}

fn no_further_slips(slips: &[Line]) -> Result<(), Fault> {
    ensure(slips.is_empty(), Law::Causes, || {
        format!("{} slips where no cross runs", slips.len())
    })
}
