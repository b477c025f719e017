//! The six modes, told by what they let a process do (guide, Table 2-1).

/// A lock mode.
#[derive(Clone, Copy, Debug, PartialEq, Eq, PartialOrd, Ord, Hash)]
pub enum Mode {
    /// Null.
    Nl,
    /// Concurrent read.
    Cr,
    /// Concurrent write.
    Cw,
    /// Protected read.
    Pr,
    /// Protected write.
    Pw,
    /// Exclusive.
    Ex,
}

/// What a process may do: nothing, read, or read and write. Each includes the ones before it.
#[derive(Clone, Copy, PartialEq, Eq, PartialOrd, Ord)]
enum Access {
    Nothing,
    Read,
    Write,
}

impl Mode {
    /// All modes, in the order of their numbers.
    pub const ALL: [Mode; 6] = [Mode::Nl, Mode::Cr, Mode::Cw, Mode::Pr, Mode::Pw, Mode::Ex];

    /// The mode of a number, if it is 0 to 5.
    pub fn from_number(number: u32) -> Option<Mode> {
        Mode::ALL.into_iter().find(|mode| mode.number() == number)
    }

    /// The paper's number.
    pub fn number(self) -> u32 {
        self as u32
    }

    /// What the holder does with the resource (Table 2-1, "Requesting Process").
    fn takes(self) -> Access {
        match self {
            Mode::Nl => Access::Nothing,
            Mode::Cr | Mode::Pr => Access::Read,
            Mode::Cw | Mode::Pw | Mode::Ex => Access::Write,
        }
    }

    /// What the holder suffers others to do (Table 2-1, "Other Processes").
    fn leaves(self) -> Access {
        match self {
            Mode::Nl | Mode::Cr | Mode::Cw => Access::Write,
            Mode::Pr | Mode::Pw => Access::Read,
            Mode::Ex => Access::Nothing,
        }
    }

    /// Whether two locks may have these modes at once: neither takes more than the other leaves. This is how Table 2-2 comes from
    /// Table 2-1; a test holds it against the paper's own words.
    pub fn compatible(self, other: Mode) -> bool {
        self.takes() <= other.leaves() && other.takes() <= self.leaves()
    }

    /// Whether a conversion from this mode to another is down: every mode compatible with the old is compatible with the new.
    pub fn down_to(self, new: Mode) -> bool {
        Mode::ALL.into_iter().filter(|mode| mode.compatible(self)).all(|mode| mode.compatible(new))
    }

    /// Whether a holder of this mode may write the value block: PW or EX.
    pub fn writes_value(self) -> bool {
        matches!(self, Mode::Pw | Mode::Ex)
    }
}

#[cfg(test)]
mod tests {
    use super::Mode::{self, *};

    /// "Compatible with: NL all; CR all but EX; CW with NL, CR, CW; PR with NL, CR, PR; PW with NL, CR; EX with NL."
    fn partners(mode: Mode) -> Vec<Mode> {
        match mode {
            Nl => vec![Nl, Cr, Cw, Pr, Pw, Ex],
            Cr => vec![Nl, Cr, Cw, Pr, Pw],
            Cw => vec![Nl, Cr, Cw],
            Pr => vec![Nl, Cr, Pr],
            Pw => vec![Nl, Cr],
            Ex => vec![Nl],
        }
    }

    #[test]
    fn compatible_as_the_paper_lists() {
        for mode in Mode::ALL {
            let found: Vec<Mode> = Mode::ALL.into_iter().filter(|other| mode.compatible(*other)).collect();
            assert_eq!(found, partners(mode), "{mode:?}");
        }
    }

    #[test]
    fn down_is_not_by_number() {
        assert!(!Pr.down_to(Cw) && !Cw.down_to(Pr));
        assert!(Mode::ALL.into_iter().all(|mode| mode.down_to(mode) && mode.down_to(Nl) && Ex.down_to(mode)));
        assert!(Pw.down_to(Cw) && Pw.down_to(Pr) && !Pw.down_to(Ex));
    }

    #[test]
    fn from_pw_or_ex_smaller_is_down() {
        for old in [Pw, Ex] {
            assert!(Mode::ALL.into_iter().filter(|new| *new < old).all(|new| old.down_to(new)));
        }
    }

    #[test]
    fn numbers() {
        assert_eq!(Mode::ALL.map(Mode::number), [0, 1, 2, 3, 4, 5]);
        assert_eq!(Mode::from_number(5), Some(Ex));
        assert_eq!(Mode::from_number(6), None);
    }
}
