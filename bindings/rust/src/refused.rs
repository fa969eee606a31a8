//! Refusals, a case for each number.

use std::error::Error;
use std::fmt;

/// The cases, their numbers and their sentences, each written once.
macro_rules! table {
    ($($case:ident = $number:literal, $sentence:literal;)*) => {
        /// Why a call was refused. A refused call has written nothing.
        ///
        /// The cases stand in the order of their numbers. Each call says in which
        /// order it tests them; it tests one over all that it is lent before the
        /// next.
        #[derive(Clone, Copy, PartialEq, Eq, Hash, Debug)]
        #[repr(u64)]
        pub enum Refused {
            $(#[doc = $sentence] $case = $number,)*
        }

        impl Refused {
            pub const ALL: &'static [Refused] = &[$(Refused::$case),*];

            fn sentence(self) -> &'static str {
                match self {
                    $(Refused::$case => $sentence,)*
                }
            }
        }
    };
}

table! {
    Size = 1, "a queue has at least 1 and at most 65,536 ids";
    ImageTooShort = 2, "the slice has too few words for the image";
    ImageNotSound = 3, "the words are not those of a sound image";
    Id = 4, "the id is not below n";
    Key = 5, "the key is not below 2^40";
    SheetLength = 11, "the sheet has under 20 bytes, or an offset or its length does not fit";
    SheetSize = 12, "the sheet's n is not in 1 to 65,536, or its h is above 524,288";
    Source = 13, "the source is neither below n nor the no-choice value";
    RowStarts = 14, "the row starts do not go from 0 to h without falling";
    Targets = 15, "a row names no vertex or its own, or does not ascend";
    Weights = 16, "a weight of the sheet is above 65,535";
    OneSided = 17, "a row names a vertex whose row does not name it back";
    DistancesTooShort = 18, "there are fewer than n words for the distances";
    WriterSize = 21, "n is not in 1 to 65,536, or there are over 262,144 edges";
    Ends = 22, "an edge has an end that is not below n, or two equal ends";
    Weight = 23, "the weight of an edge is above 65,535";
    Twice = 24, "two edges join the same two vertices";
    TargetTooShort = 25, "the target has fewer bytes than the sheet";
}

impl Refused {
    /// The number of the library's table.
    pub fn number(&self) -> u64 {
        *self as u64
    }

    /// What the library's number stands for: 0 is no refusal.
    pub(crate) fn unless(number: u64) -> Result<(), Refused> {
        if number == 0 {
            return Ok(());
        }
        let refused = Refused::ALL.iter().find(|case| case.number() == number);
        // The contracts of the proved calls name no other number.
        Err(*refused.expect("a number of the table"))
    }
}

impl fmt::Display for Refused {
    fn fmt(&self, out: &mut fmt::Formatter) -> fmt::Result {
        write!(out, "refused {}: {}", self.number(), self.sentence())
    }
}

impl Error for Refused {}
