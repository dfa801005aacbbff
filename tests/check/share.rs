//! The shares of demand 3 for one flow, over every stretch of a run.
//!
//! A flow's lead at a moment is sent × T − slots × a. A stretch's sent cells differ from l × a / T by the
//! difference of the leads at its ends, divided by T. So among all stretches with the same end, the one from
//! the least lead comes nearest to the upper bound and the one from the greatest lead nearest to the lower
//! bound; and as the lead falls until a cell is sent, only the ends next to a sent cell matter.

/// A moment between two slots.
#[derive(Clone, Copy, Debug)]
struct Moment {
    slots: u64,
    sent: u64,
}

pub struct Share {
    frame: u64,
    rate: u64,
    sent: u64,
    /// The moment of least lead since the rate last changed.
    least: Moment,
    /// The moment of greatest lead since the rate last changed and the board last answered empty.
    greatest: Moment,
    /// The board never answered empty.
    fed_since_start: bool,
}

/// Cells that may be missing from the lower bound where the board never answers empty. The scope asks for 3, and for 2 if it
/// never did since the start; 2 is proved of every such stretch.
const SHORT_IF_FED: u64 = 2;

/// What a slot showed.
#[derive(Default)]
pub struct Shown {
    /// The board never answered empty before.
    pub fed_since_start: bool,
    /// A stretch up to this slot had as few cells as are promised, or one that ends with it has as many.
    pub lower_reached: bool,
    pub upper_reached: bool,
}

impl Share {
    pub fn new(frame: u32, rate: u16) -> Share {
        let start = Moment { slots: 0, sent: 0 };
        Share {
            frame: u64::from(frame),
            rate: u64::from(rate),
            sent: 0,
            least: start,
            greatest: start,
            fed_since_start: true,
        }
    }

    /// The plan of the slot that begins after `slots` gives the flow this rate.
    pub fn set_rate(&mut self, slots: u64, rate: u16) -> Result<(), String> {
        if self.rate == u64::from(rate) {
            return Ok(());
        }
        self.check_lower(slots)?;
        self.rate = u64::from(rate);
        self.least = self.moment(slots);
        self.greatest = self.least;
        Ok(())
    }

    /// One slot in which the board answered empty, the head sent a cell, or both.
    pub fn slot(&mut self, slots: u64, board_empty: bool, head_sent: bool) -> Result<Shown, String> {
        let lower_reached = self.check_lower(slots)?;
        let mut shown = Shown { fed_since_start: self.fed_since_start, lower_reached, upper_reached: false };
        if head_sent {
            let before = self.moment(slots);
            if self.lead(before) < self.lead(self.least) {
                self.least = before;
            }
            self.sent += 1;
            let after = self.moment(slots + 1);
            shown.upper_reached = self.check_upper(after)?;
            if self.lead(after) > self.lead(self.greatest) {
                self.greatest = after;
            }
        }
        if board_empty {
            self.greatest = self.moment(slots + 1);
            self.fed_since_start = false;
        }
        Ok(shown)
    }

    pub fn end(&self, slots: u64) -> Result<(), String> {
        self.check_lower(slots).map(|_reached| ())
    }

    fn moment(&self, slots: u64) -> Moment {
        Moment { slots, sent: self.sent }
    }

    fn lead(&self, moment: Moment) -> i128 {
        i128::from(moment.sent) * i128::from(self.frame) - i128::from(moment.slots) * i128::from(self.rate)
    }

    /// Answers whether the bound is reached.
    fn check_upper(&self, end: Moment) -> Result<bool, String> {
        let (length, sent) = (end.slots - self.least.slots, end.sent - self.least.sent);
        let most = (length * self.rate).div_ceil(self.frame) + 1;
        if sent > most {
            return Err(self.describe("upper", self.least.slots, length, sent, most));
        }
        Ok(sent == most)
    }

    /// Answers whether the bound is reached.
    fn check_lower(&self, end: u64) -> Result<bool, String> {
        let (length, sent) = (end - self.greatest.slots, self.sent - self.greatest.sent);
        let figure = length * self.rate / self.frame;
        if sent + SHORT_IF_FED < figure {
            return Err(self.describe("lower", self.greatest.slots, length, sent, figure - SHORT_IF_FED));
        }
        Ok(sent + SHORT_IF_FED == figure)
    }

    fn describe(&self, side: &str, first: u64, length: u64, sent: u64, bound: u64) -> String {
        let stretch = format!("{length} slots from slot {first} of the run, rate {} of {}", self.rate, self.frame);
        format!("{side} share broken: {sent} cells sent in the {stretch}; the bound is {bound}")
    }
}
