//! What each kind of line says, read into the draft. A line with a fault still counts, with zeros for what it does not say,
//! so that the lines after it are not at fault for it.

use crate::draft::{sheet_without_winners, Head};
use crate::limits;
use crate::line::Line;
use crate::number::{BYTE, EIGHT_BYTES, FOUR_BYTES, TWO_BYTES};
use crate::reader::Reader;
use crate::sets::set_named;
use reference::sheet::sheet_length;
use reference::{Bid, Multipliers, Sheet, Winner};

impl Reader {
    pub(crate) fn book(&mut self, line: &Line) {
        self.keep(line.no_own());
        self.draft.head = self.head(line);
    }

    fn head(&mut self, line: &Line) -> Head {
        Head {
            version: self.keep(line.one("version", 0, BYTE)),
            length: self.keep(line.one("length", 0, TWO_BYTES)),
        }
    }

    pub(crate) fn kind(&mut self, part: usize, line: &Line) {
        self.follows(part, line);
        let supply = self.keep(line.need("supply", BYTE));
        let reserve = self.keep(line.need("reserve", TWO_BYTES));
        self.draft.book.supply.push(supply);
        self.draft.book.reserve.push(reserve);
        self.warn(line, limits::of_kinds(&self.draft.book));
        self.book_fits(line, self.draft.book.supply.len());
    }

    pub(crate) fn client(&mut self, part: usize, line: &Line) {
        self.follows(part, line);
        self.keep(line.one_field_at_most("a client has one status"));
        self.keep(line.flag("standing"));
        let withdrawn = self.keep(line.flag("withdrawn"));
        let status = self.keep(line.one("status", 0, BYTE));
        self.draft
            .book
            .status
            .push(status.unwrap_or(i128::from(withdrawn)));
        self.warn(line, limits::of_clients(&self.draft.book));
        self.book_fits(line, self.draft.book.status.len());
    }

    pub(crate) fn bid(&mut self, part: usize, line: &Line) {
        self.follows(part, line);
        let kinds = self.draft.book.supply.len();
        let expected = format!("a number for each kind, {kinds} in all");
        let count = (!self.lost).then_some(kinds);
        let bid = Bid {
            client: self.keep(line.need("client", BYTE)) as usize,
            hours: self.keep(line.run("hours", count, &expected, BYTE)),
            amount: self.keep(line.need("amount", FOUR_BYTES)),
        };
        self.draft.book.bids.push(bid);
        self.warn(line, limits::of_bids(&self.draft.book));
        self.book_fits(line, self.draft.book.bids.len());
    }

    /// That the count up to this line fits its byte, and the book's length its two.
    fn book_fits(&mut self, line: &Line, count: usize) {
        let (word, length) = (&line.keyword, self.draft.book.length());
        let said = if self.book_full {
            return;
        } else if count as i128 > BYTE {
            format!(
                "{count} {} lines, and a book has room for {BYTE}",
                word.text
            )
        } else if length as i128 > TWO_BYTES {
            format!("the book is {length} bytes long here, more than {TWO_BYTES}")
        } else {
            return;
        };
        self.book_full = true;
        self.faults.push(word.fault(said));
    }

    pub(crate) fn sheet(&mut self, line: &Line) {
        self.keep(line.no_own());
        let q = self.keep(line.need("q", FOUR_BYTES));
        let s = self.keep(line.need("s", FOUR_BYTES));
        let g = self.keep(line.one("G", i64::MIN.into(), i64::MAX.into()));
        let head = self.head(line);
        self.draft.sheet = Some((head, sheet_without_winners(q, s, g.unwrap_or(0))));
    }

    /// The sheet so far. Where there is none, that is told once, and an empty one stands in.
    fn sheet_so_far(&mut self, line: &Line) -> &mut Sheet {
        if self.draft.sheet.is_none() && !self.lost {
            let said = format!("a {} line before the sheet line", line.keyword.text);
            self.faults.push(line.keyword.fault(said));
        }
        let empty = || (Head::default(), sheet_without_winners(0, 0, 0));
        &mut self.draft.sheet.get_or_insert_with(empty).1
    }

    pub(crate) fn winner(&mut self, part: usize, line: &Line) {
        let w = self.sheet_so_far(line).w();
        if !self.seen[part] {
            self.next[part] = 0;
        }
        self.follows(part, line);
        let winner = Winner {
            bid: self.keep(line.need("bid", BYTE)) as usize,
            x: self.keep(line.need("X", EIGHT_BYTES)),
            z: self.keep(line.one("Z", 0, FOUR_BYTES)).unwrap_or(0),
            r: self.keep(line.one("R", 0, EIGHT_BYTES)).unwrap_or(0),
            t: self.keep(line.one("T", 0, EIGHT_BYTES)).unwrap_or(0),
        };
        let length = sheet_length(w + 1);
        if length as i128 <= TWO_BYTES {
            self.warn(line, limits::of_winners(w + 1, &self.draft.book));
            let sheet = self.sheet_so_far(line);
            sheet.winners.push(winner);
            sheet.sets.resize(1 << sheet.w(), Multipliers::default());
        } else if !self.sheet_full {
            self.sheet_full = true;
            let said = format!("the sheet is {length} bytes long here, more than {TWO_BYTES}");
            self.faults.push(line.keyword.fault(said));
        }
    }

    pub(crate) fn set(&mut self, line: &Line) {
        let w = self.sheet_so_far(line).w();
        let multipliers = Multipliers {
            y: self.keep(line.one("Y", 0, FOUR_BYTES)).unwrap_or(0),
            u: self.keep(line.one("U", 0, EIGHT_BYTES)).unwrap_or(0),
        };
        let set = match set_named(line, w) {
            Err(_) if self.lost || self.sheet_full => return,
            found => self.keep(found),
        };
        if let Some((_, earlier)) = self
            .sets
            .iter()
            .find(|&&(other, _)| other == set && set != 0)
        {
            let said = format!("this set has a line already, line {earlier}");
            self.faults.push(line.keyword.fault(said));
        }
        self.sets.push((set, line.keyword.line));
        self.sheet_so_far(line).sets[set] = multipliers;
    }
}
