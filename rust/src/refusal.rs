#![forbid(unsafe_code)]

use crate::written_refusal::{Refusal, TEXTS};
use std::{error, fmt};

impl Refusal {
    /// The refusal's number, as `curspan.h` and the log of scripts have it.
    #[must_use]
    pub const fn number(self) -> u32 {
        self as u32
    }

    /// What the refusal says.
    #[must_use]
    pub const fn text(self) -> &'static str {
        TEXTS[self as usize - 1].1
    }

    /// The refusal of a number, if there is one.
    pub(crate) fn of_number(number: u32) -> Option<Refusal> {
        let place = (number as usize).checked_sub(1)?;
        TEXTS.get(place).map(|&(refusal, _)| refusal)
    }
}

impl fmt::Display for Refusal {
    fn fmt(&self, f: &mut fmt::Formatter<'_>) -> fmt::Result {
        f.write_str(self.text())
    }
}

impl error::Error for Refusal {}
