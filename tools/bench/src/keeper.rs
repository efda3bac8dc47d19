//! The two keepers, for lawful sheets: what they keep between calls, and in what memory.

use crate::table::{holds, is_core, put, Marks, Table};

/// A keeper is given a table to change and takes back what became of it.
pub trait Keeper {
    fn load(&self, table: &mut Table) -> Marks;

    /// Keeps the result; false where its core does not fit.
    fn store(&mut self, table: &Table, marks: Marks) -> bool;

    fn marks(&self) -> Marks;

    fn share(&self, p: usize, q: usize) -> bool;
}

const UNOPENED: Marks = Marks {
    positions: 0,
    free: 0,
    linear: 0,
};

pub struct TableKeeper {
    table: Table,
    marks: Marks,
}

impl TableKeeper {
    pub fn new() -> TableKeeper {
        TableKeeper {
            table: [0; 512],
            marks: UNOPENED,
        }
    }
}

impl Default for TableKeeper {
    fn default() -> TableKeeper {
        TableKeeper::new()
    }
}

impl Keeper for TableKeeper {
    fn load(&self, table: &mut Table) -> Marks {
        *table = self.table;
        self.marks
    }

    fn store(&mut self, table: &Table, marks: Marks) -> bool {
        self.table = *table;
        self.marks = marks;
        true
    }

    fn marks(&self) -> Marks {
        self.marks
    }

    fn share(&self, p: usize, q: usize) -> bool {
        let pair = 1 << p | 1 << q;
        (1..1u16 << self.marks.positions).any(|g| g & pair == pair && holds(&self.table, g))
    }
}

pub struct ListKeeper<'a> {
    list: &'a mut [u16],
    count: usize,
    marks: Marks,
}

impl ListKeeper<'_> {
    pub fn new(list: &mut [u16]) -> ListKeeper<'_> {
        ListKeeper {
            list,
            count: 0,
            marks: UNOPENED,
        }
    }
}

impl Keeper for ListKeeper<'_> {
    fn load(&self, table: &mut Table) -> Marks {
        table.fill(0);
        self.list[..self.count]
            .iter()
            .for_each(|g| put(table, *g, true));
        self.marks
    }

    fn store(&mut self, table: &Table, marks: Marks) -> bool {
        let core = || (1..1u16 << marks.positions).filter(|g| is_core(table, *g));
        if core().count() > self.list.len() {
            return false;
        }
        self.count = 0;
        for g in core() {
            self.list[self.count] = g;
            self.count += 1;
        }
        self.list[self.count..].fill(0);
        self.marks = marks;
        true
    }

    fn marks(&self) -> Marks {
        self.marks
    }

    fn share(&self, p: usize, q: usize) -> bool {
        let pair = 1 << p | 1 << q;
        self.list[..self.count].iter().any(|g| g & pair == pair)
    }
}
