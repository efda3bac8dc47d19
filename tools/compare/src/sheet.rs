//! Writing sheets.

/// A term, as it is written on a sheet.
#[derive(Clone)]
pub enum Term {
    Position(u8),
    Constant,
    Compound(Vec<Term>),
}

#[derive(Clone, Default)]
pub struct Sheet {
    pub bytes: Vec<u8>,
}

pub fn record(kind: u16, payload: &[u8]) -> Vec<u8> {
    let length = u16::try_from(payload.len()).unwrap_or(u16::MAX);
    let mut bytes = length.to_le_bytes().to_vec();
    bytes.extend(kind.to_le_bytes());
    bytes.extend(payload);
    bytes
}

impl Term {
    /// f(..) over positions.
    pub fn over(positions: &[u8]) -> Term {
        Term::Compound(positions.iter().map(|p| Term::Position(*p)).collect())
    }

    /// A position inside so many compounds.
    pub fn nested(depth: usize, position: u8) -> Term {
        (0..depth).fold(Term::Position(position), |term, _| {
            Term::Compound(vec![term])
        })
    }

    pub fn bytes(&self) -> Vec<u8> {
        match self {
            Term::Position(p) => record(17, &[*p]),
            Term::Constant => record(18, &[7, 0]),
            Term::Compound(args) => {
                let mut payload = vec![3, 0];
                args.iter().for_each(|arg| payload.extend(arg.bytes()));
                record(19, &payload)
            }
        }
    }
}

impl Sheet {
    pub fn opened(n: u8) -> Sheet {
        Sheet::default().raw(1, &[n])
    }

    pub fn raw(mut self, kind: u16, payload: &[u8]) -> Sheet {
        self.bytes.extend(record(kind, payload));
        self
    }

    pub fn bind(self, x: u8, term: &Term) -> Sheet {
        let mut payload = vec![x];
        payload.extend(term.bytes());
        self.raw(2, &payload)
    }

    pub fn join(self, free: u16, linear: u16, groups: &[u16]) -> Sheet {
        let words = [free, linear].into_iter().chain(groups.iter().copied());
        let payload: Vec<u8> = words.flat_map(u16::to_le_bytes).collect();
        self.raw(3, &payload)
    }

    pub fn forget(self, mask: u16) -> Sheet {
        self.raw(4, &mask.to_le_bytes())
    }

    pub fn ask(self, letter: char, positions: &[u8]) -> Sheet {
        let mut payload = vec![letter as u8];
        payload.extend(positions);
        self.raw(5, &payload)
    }

    pub fn end(self) -> Vec<u8> {
        self.raw(6, &[]).bytes
    }

    /// Grounds every position outside the window. What is covered in the window is then what is shared.
    pub fn only_in(self, n: u8, window: u16) -> Sheet {
        (0..n)
            .filter(|p| window >> p & 1 == 0)
            .fold(self, |sheet, p| sheet.bind(p, &Term::Constant))
    }

    /// Asks all there is to ask.
    pub fn ask_all(mut self, n: u8) -> Sheet {
        for p in 0..n {
            for letter in ['g', 'f', 'l'] {
                self = self.ask(letter, &[p]);
            }
            self = (p..n).fold(self, |sheet, q| sheet.ask('p', &[p, q]));
        }
        self
    }
}
