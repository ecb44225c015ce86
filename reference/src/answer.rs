//! Causes and numbers: the answer of a run.

use crate::cause::{Refusal, Refused, Stop};
use crate::request::Request;

#[derive(Clone, Copy, Debug, PartialEq, Eq)]
pub enum End {
    Finished,
    Spent,
    Stopped(Stop),
    Refused(Refusal),
}

#[derive(Clone, Copy, Debug, PartialEq, Eq)]
pub struct Answer {
    pub end: End,
    pub steps: u64,
    /// Of the record at fault, 0 where there is none.
    pub offset: u64,
    pub pairs: u64,
    /// Sheet words written.
    pub sheet: u64,
    pub tally: u64,
    pub designator: u64,
    /// The chain engine's, 0 from the others.
    pub links: u64,
}

impl Answer {
    pub fn refused(request: &Request, refused: Refused) -> Answer {
        Answer {
            end: End::Refused(refused.cause),
            steps: 0,
            offset: refused.offset as u64,
            pairs: request.count as u64,
            sheet: 0,
            tally: request.tally,
            designator: 0,
            links: 0,
        }
    }

    /// The cause's number, 0 where there is none.
    pub fn number(&self) -> u64 {
        match self.end {
            End::Finished | End::Spent => 0,
            End::Stopped(cause) => cause as u64,
            End::Refused(cause) => cause as u64,
        }
    }

    /// The answer as the C interface lays it out.
    pub fn words(&self) -> [u64; 9] {
        let end = match self.end {
            End::Finished => 0,
            End::Spent => 1,
            End::Stopped(_) => 2,
            End::Refused(_) => 3,
        };
        [
            end,
            self.number(),
            self.steps,
            self.offset,
            self.pairs,
            self.sheet,
            self.tally,
            self.designator,
            self.links,
        ]
    }
}
