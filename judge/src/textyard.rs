//! The yardstick of speed for texts: a plain reader, byte by byte in one pass,
//! with tables by variable on the stack. It needs `core` alone and nothing of
//! this package, so that it can be compiled by itself.
//!
//! Bound words, clause ends and literals go to their places in the output as
//! they come, as far as they fit; the rest is done at the end.

/// The limits of V, C and T.
const LIMITS: [usize; 3] = [1024, 4096, 8192];

/// One place for each variable, place 0 unused.
const PLACES: usize = 1025;

/// Stands for every number of a size over 2^31.
const LARGE: u64 = (1 << 31) + 1;

/// 0 and the block's length, 27 and the place, 28 to 30 and 0, or 31 and the
/// row. The output is 0 after a refusal and past the block.
pub fn read(text: &[u8], output: &mut [i32]) -> (u8, usize) {
    let mut reader = Reader {
        text,
        at: 0,
        output,
        counts: [0; 3],
        bound: 0,
        ends: 0,
        large: false,
        over: false,
    };
    let answer = match reader.whole() {
        Some(()) => reader.answer(),
        None => (27, reader.at),
    };
    let used = if answer.0 == 0 { answer.1 } else { 0 };
    output[used..].fill(0);
    answer
}

struct Reader<'a> {
    text: &'a [u8],
    /// The place of the next byte; where a text stops, this is the place of 27.
    at: usize,
    output: &'a mut [i32],
    /// V and C as announced, T as seen.
    counts: [usize; 3],
    bound: usize,
    ends: usize,
    /// Some number is beyond 32 bits.
    large: bool,
    /// Some bound number is over V.
    over: bool,
}

/// The lines. `None` is a text that stops.
impl Reader<'_> {
    fn whole(&mut self) -> Option<()> {
        self.before_problem()?;
        self.problem()?;
        let mut clauses = false;
        loop {
            self.blanks();
            match self.peek() {
                None => return self.ends_line(),
                Some(b'a') if !clauses => self.group(-1)?,
                Some(b'e') if !clauses => self.group(1)?,
                _ => {
                    clauses = true;
                    self.clause()?;
                }
            }
        }
    }

    /// The text ends where a line has ended.
    fn ends_line(&self) -> Option<()> {
        (self.text.last() == Some(&b'\n')).then(|| ())
    }

    fn before_problem(&mut self) -> Option<()> {
        loop {
            self.blanks();
            if self.peek()? != b'c' {
                return Some(());
            }
            while matches!(self.peek()?, 32..=126 | b'\t') {
                self.at += 1;
            }
            self.byte(b'\n')?;
        }
    }

    fn problem(&mut self) -> Option<()> {
        self.byte(b'p')?;
        self.gap()?;
        for byte in *b"cnf" {
            self.byte(byte)?;
        }
        for which in 0..2 {
            self.gap()?;
            let size = self.number()?;
            self.large |= size >= 1 << 31;
            self.counts[which] = size as usize;
        }
        self.close()
    }

    fn group(&mut self, sign: i32) -> Option<()> {
        self.at += 1;
        self.gap()?;
        let mut size = self.above_zero()?;
        while size != 0 {
            self.bind(size, sign);
            self.gap()?;
            size = self.number()?;
        }
        self.close()
    }

    fn bind(&mut self, size: u64, sign: i32) {
        self.large |= size >= 1 << 31;
        self.over |= size > self.counts[0] as u64;
        if self.bound < self.counts[0] {
            self.put(6 + self.bound, sign.wrapping_mul(size as i32));
        }
        self.bound += 1;
    }

    fn clause(&mut self) -> Option<()> {
        let literals = 6 + self.counts[0] + self.counts[1];
        loop {
            let negative = self.peek()? == b'-';
            self.at += usize::from(negative);
            let size = if negative {
                self.above_zero()?
            } else {
                self.number()?
            };
            if size == 0 {
                break;
            }
            self.large |= size >= (1 << 31) + u64::from(negative);
            let word = if negative {
                -(size as i64)
            } else {
                size as i64
            };
            self.put(literals + self.counts[2], word as i32);
            self.counts[2] += 1;
            self.gap()?;
        }
        if self.ends < self.counts[1] {
            self.put(6 + self.counts[0] + self.ends, self.counts[2] as i32);
        }
        self.ends += 1;
        self.close()
    }

    fn put(&mut self, place: usize, word: i32) {
        if let Some(at) = self.output.get_mut(place) {
            *at = word;
        }
    }
}

/// Bytes and words.
impl Reader<'_> {
    fn peek(&self) -> Option<u8> {
        self.text.get(self.at).copied()
    }

    fn byte(&mut self, wanted: u8) -> Option<()> {
        if self.peek()? != wanted {
            return None;
        }
        self.at += 1;
        Some(())
    }

    fn blanks(&mut self) {
        while let Some(b' ' | b'\t') = self.peek() {
            self.at += 1;
        }
    }

    fn gap(&mut self) -> Option<()> {
        let before = self.at;
        self.blanks();
        (self.at > before).then(|| ())
    }

    fn close(&mut self) -> Option<()> {
        self.blanks();
        self.byte(b'\n')
    }

    fn number(&mut self) -> Option<u64> {
        if self.peek()? == b'0' {
            self.at += 1;
            return Some(0);
        }
        self.above_zero()
    }

    fn above_zero(&mut self) -> Option<u64> {
        if self.peek()? == b'0' {
            return None;
        }
        let before = self.at;
        let mut size = 0;
        while let Some(digit @ b'0'..=b'9') = self.peek() {
            size = (10 * size + u64::from(digit - b'0')).min(LARGE);
            self.at += 1;
        }
        (self.at > before).then(|| size)
    }
}

/// What is due at the end.
impl Reader<'_> {
    fn answer(&mut self) -> (u8, usize) {
        let [v, c, t] = self.counts;
        let length = 6 + v + c + t;
        if self.large || self.ends != c {
            (28, 0)
        } else if self.counts.iter().zip(LIMITS).any(|(&n, most)| n > most) {
            (29, 0)
        } else if self.output.len() < length {
            (30, 0)
        } else if self.over {
            (31, 5)
        } else {
            match self.complete(v, c, length) {
                0 => (0, length),
                row => (31, row),
            }
        }
    }

    /// The header and the whole prefix, and the first broken row of 6 to 23.
    fn complete(&mut self, v: usize, c: usize, length: usize) -> usize {
        let header = [v, c, self.counts[2], 6, 6 + v, 6 + v + c];
        for (place, word) in header.into_iter().enumerate() {
            self.output[place] = word as i32;
        }
        let (output, literals) = self.output[..length].split_at_mut(6 + v + c);
        let (output, ends) = output.split_at_mut(6 + v);
        let prefix = &mut output[6..];
        let mut bound = [false; PLACES];
        for word in prefix.iter().take(self.bound) {
            let size = word.unsigned_abs() as usize;
            if bound[size] {
                return 6;
            }
            bound[size] = true;
        }
        if self.bound > v {
            return 6;
        }
        place_unbound(prefix, self.bound, &bound, literals);
        if prefix.last().map_or(false, |&word| word < 0) {
            return 7;
        }
        row_of_clauses(v, ends, literals)
    }
}

/// Free variables before the bound ones, idle ones after them.
fn place_unbound(prefix: &mut [i32], count: usize, bound: &[bool; PLACES], literals: &[i32]) {
    let mut named = [false; PLACES];
    for literal in literals {
        let size = literal.unsigned_abs() as usize;
        if size <= prefix.len() {
            named[size] = true;
        }
    }
    let unbound = |wanted: bool| {
        let places = 1..prefix.len() + 1;
        places.filter(move |&size| !bound[size] && named[size] == wanted)
    };
    let free = unbound(true).count();
    let (free_sizes, idle_sizes) = (unbound(true), unbound(false));
    prefix.copy_within(..count, free);
    for (place, size) in (0..free).zip(free_sizes) {
        prefix[place] = size as i32;
    }
    for (place, size) in (free + count..).zip(idle_sizes) {
        prefix[place] = size as i32;
    }
}

/// Rows 9, 10 and 23. A table by literal has the last clause that holds it.
fn row_of_clauses(v: usize, ends: &[i32], literals: &[i32]) -> usize {
    let over = |literal: &i32| literal.unsigned_abs() as usize > v;
    if literals.iter().any(over) {
        return 9;
    }
    let mut last = [[0; 2]; PLACES];
    let (mut repeats, mut start) = (false, 0);
    for (number, &end) in (1..).zip(ends) {
        for literal in &literals[start..end as usize] {
            let size = literal.unsigned_abs() as usize;
            let sign = usize::from(*literal < 0);
            if last[size][1 - sign] == number {
                return 10;
            }
            repeats |= last[size][sign] == number;
            last[size][sign] = number;
        }
        start = end as usize;
    }
    if repeats {
        23
    } else {
        0
    }
}
