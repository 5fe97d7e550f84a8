// Input lines of many days, from a seed: `generate SEED LINES`. The plain book goes along, so that most calls are good ones.
#[allow(dead_code)]
mod book;
#[allow(dead_code)]
mod text;

use book::{Book, Program, Stage};
use std::io::Write;

struct Maker {
    state: u64,
    program: Program,
    answer: Vec<u8>,
    out: Vec<u8>,
    made: usize,
    wanted: usize,
}

impl Maker {
    // A number below `bound`.
    fn below(&mut self, bound: u32) -> u32 {
        self.state = self.state.wrapping_add(0x9E37_79B9_7F4A_7C15);
        let mut z = self.state;
        z = (z ^ (z >> 30)).wrapping_mul(0xBF58_476D_1CE4_E5B9);
        z = (z ^ (z >> 27)).wrapping_mul(0x94D0_49BB_1331_11EB);
        ((z ^ (z >> 31)) >> 32) as u32 % bound
    }

    fn from(&mut self, low: u32, high: u32) -> u32 {
        low + self.below(high - low + 1)
    }

    // True so many times in a thousand.
    fn chance(&mut self, thousandth: u32) -> bool {
        self.below(1_000) < thousandth
    }

    fn one_of(&mut self, list: &[u32]) -> u32 {
        list[self.below(list.len() as u32) as usize]
    }

    fn book(&self) -> &Book {
        self.program.book.as_ref().expect("the book is open")
    }

    fn full(&self) -> bool {
        self.made >= self.wanted
    }

    fn raw(&mut self, line: &[u8]) {
        if self.full() {
            return;
        }
        self.made += 1;
        self.out.extend_from_slice(line);
        self.answer.clear();
        text::answer(&mut self.program, line, &mut self.answer);
    }

    fn text(kind: u32, fields: &[u32]) -> Vec<u8> {
        let mut line = kind.to_string();
        for field in fields {
            line.push(' ');
            line.push_str(&field.to_string());
        }
        line.push('\n');
        line.into_bytes()
    }

    fn call(&mut self, kind: u32, fields: &[u32]) {
        self.raw(&Maker::text(kind, fields));
    }

    fn wild(&mut self) -> u32 {
        let near = self.below(200);
        self.one_of(&[
            0, 1, 2, 3, 33, 100, 257, 99_999, 100_000, 100_001, 1_000_000, 1_000_001, 99_999_999, near,
        ])
    }

    // A number from 1 to `count`, now and then another.
    fn number(&mut self, count: usize) -> u32 {
        if count == 0 || self.chance(15) {
            self.wild()
        } else {
            self.from(1, count as u32)
        }
    }

    fn account(&mut self) -> u32 {
        self.number(self.book().accounts.len())
    }

    // Mostly a series that has not expired.
    fn series(&mut self) -> u32 {
        let count = self.book().series.len();
        let mut series = self.number(count);
        for _ in 0..8 {
            let at = series.wrapping_sub(1) as usize;
            if self
                .book()
                .series
                .get(at)
                .is_none_or(|s| s.expiry > self.book().previous)
                || self.chance(30)
            {
                break;
            }
            series = self.number(count);
        }
        series
    }

    // One of a participant's accounts, if there is one, mostly not `but`.
    fn account_of(&mut self, participant: u32, but: usize) -> u32 {
        let list: Vec<u32> = (0..self.book().accounts.len())
            .filter(|a| self.book().accounts[*a].participant == participant && *a != but)
            .map(|a| a as u32 + 1)
            .collect();
        if list.is_empty() || self.chance(80) {
            self.account()
        } else {
            self.one_of(&list)
        }
    }

    fn quantity(&mut self) -> u32 {
        match self.below(1_000) {
            0..=4 => self.wild(),
            5..=11 => self.from(1_000, 100_000),
            12..=100 => self.from(1, 800),
            _ => self.from(1, 40),
        }
    }

    fn price(&mut self) -> u32 {
        if self.chance(8) {
            self.wild()
        } else {
            self.from(40_000, 60_000)
        }
    }

    fn code(&mut self, count: u32) -> u32 {
        if self.chance(8) {
            self.wild()
        } else {
            self.from(1, count)
        }
    }

    fn series_line(&mut self) {
        let day = self.book().day;
        let expiry = match self.below(100) {
            0..=2 => day.saturating_sub(1),
            3..=4 => self.wild(),
            5..=54 => day,
            55..=89 => day + self.below(40),
            _ => 99_900 + self.below(100),
        };
        let strike = if self.chance(30) {
            self.wild()
        } else {
            40_000 + 2_500 * self.below(9)
        };
        let right = self.code(2);
        self.call(12, &[right, strike, expiry]);
    }

    // Series are listed bit by bit, so that expiries fall on all parts of the lines.
    fn may_list(&self) -> bool {
        self.book().series.len() < 18 + 14 * self.made / self.wanted
    }

    fn trade(&mut self) {
        let series = self.series();
        let at = series.wrapping_sub(1) as usize;
        let crowded = at < self.book().series.len() && self.book().longs(at) > 50_000;
        let closing = if crowded { 900 } else { 450 };
        let mut effects = [1, 1];
        for effect in &mut effects {
            *effect = if self.chance(6) {
                self.wild()
            } else {
                1 + u32::from(self.chance(closing))
            };
        }
        let buyer = self.account();
        let seller = if self.chance(30) { buyer } else { self.account() };
        let (quantity, price) = (self.quantity(), self.price());
        self.call(13, &[series, buyer, effects[0], seller, effects[1], quantity, price]);
    }

    fn leg(&mut self, held: bool) -> u32 {
        let count = self.book().legs.len();
        let mut leg = self.number(count);
        for _ in 0..12 {
            let at = leg.wrapping_sub(1) as usize;
            if self.book().legs.get(at).is_none_or(|l| l.held_for.is_some() == held) || self.chance(60) {
                break;
            }
            leg = self.number(count);
        }
        leg
    }

    fn leg_call(&mut self, kind: u32) {
        let leg = self.leg(kind == 17);
        let of = self.book().legs.get(leg.wrapping_sub(1) as usize).copied();
        let own = of.map_or(0, |l| l.account);
        let participant = of.map_or(1, |l| self.book().accounts[l.account].participant);
        match kind {
            15 => {
                let to = if self.chance(30) {
                    own as u32 + 1
                } else {
                    self.account_of(participant, own)
                };
                self.call(15, &[leg, to]);
            }
            16 => {
                let to = if self.chance(30) { self.wild() } else { self.from(1, 7) };
                self.call(16, &[leg, to]);
            }
            _ => {
                let held_for = of.and_then(|l| l.held_for).unwrap_or(1);
                let (answer, account) = match self.below(100) {
                    0..=64 => (1, self.account_of(held_for, 99)),
                    65..=89 => (2, 0),
                    90..=93 => (2, 1),
                    94..=96 => (1, 0),
                    _ => (self.wild(), 1),
                };
                self.call(17, &[leg, answer, account]);
            }
        }
    }

    fn position(&mut self) {
        let (mut from, mut series, mut side) = (self.account(), self.series(), self.code(2));
        let mut held = 0;
        for _ in 0..20 {
            let (a, s) = (from.wrapping_sub(1) as usize, series.wrapping_sub(1) as usize);
            held = 0;
            if a < 32 && s < 32 {
                let cell = self.book().cells[s][a];
                held = if side == 1 { cell.longs } else { cell.shorts };
            }
            if held > 0 || self.chance(10) {
                break;
            }
            (from, series, side) = (self.account(), self.series(), self.code(2));
        }
        let at = from.wrapping_sub(1) as usize;
        let participant = self.book().accounts.get(at).map_or(1, |a| a.participant);
        let to = if self.chance(20) {
            from
        } else {
            self.account_of(participant, at)
        };
        let quantity = if held == 0 || self.chance(50) {
            self.quantity()
        } else {
            self.from(1, held.min(200))
        };
        self.call(19, &[from, to, series, side, quantity]);
    }

    fn criterion(&mut self) {
        let account = if self.chance(150) { 0 } else { self.account() };
        let form = if self.chance(10) { self.wild() } else { self.below(3) };
        let value = match (form, self.below(100)) {
            (_, 0..=4) => self.wild(),
            (0, _) => 0,
            (1, 5..=9) => self.one_of(&[0, 10_000, 10_001]),
            (1, _) => 50 * self.below(12),
            (_, 5..=9) => self.one_of(&[0, 1_000_000, 1_000_001]),
            _ => 250 * self.below(12),
        };
        let right = self.code(2);
        self.call(22, &[account, right, form, value]);
    }

    fn denial(&mut self) {
        let today: Vec<u32> = (0..self.book().series.len())
            .filter(|s| self.book().expires_today(*s))
            .map(|s| s as u32 + 1)
            .collect();
        let series = if today.is_empty() || self.chance(100) {
            self.series()
        } else {
            self.one_of(&today)
        };
        let account = self.account();
        let quantity = if self.chance(100) { self.wild() } else { self.below(60) };
        self.call(23, &[account, series, quantity]);
    }

    fn shares(&mut self, kind: u32) {
        let account = self.account();
        let held = self
            .book()
            .accounts
            .get(account.wrapping_sub(1) as usize)
            .map_or(0, |a| a.collateral);
        let size = self.book().size;
        let shares = match self.below(100) {
            0..=2 => self.wild(),
            3..=6 => self.one_of(&[99_999_999, 50_000_000, 99_999_999 - held, held, held + 1]),
            7..=40 => size * self.from(1, 60),
            _ => self.from(1, size * 20),
        };
        let shares = if kind == 26 && held > 0 && self.chance(700) {
            self.from(1, held)
        } else {
            shares
        };
        self.call(kind, &[account, shares.min(99_999_999)]);
    }

    // A line with one of the common faults.
    fn faulty(&mut self) {
        let kind = self.one_of(&[10, 11, 12, 13, 17, 19, 22, 24, 25, 27, 28, 29, 30, 31, 32]);
        let fields: Vec<u32> = (0..self.below(9)).map(|_| self.wild()).collect();
        let mut line = Maker::text(kind, &fields);
        let end = line.len() as u32 - 1;
        let at = self.below(end) as usize;
        match self.below(12) {
            0 => line = b"\n".to_vec(),
            1 => drop(line.remove(at)),
            2 => line[at] = self.one_of(&[0, 9, 13, 32, 45, 48, 58, 65, 127, 128, 255]) as u8,
            3 => line.insert(at, self.one_of(&[0, 9, 13, 32, 43, 48, 57, 200]) as u8),
            4 => line.insert(end as usize, self.one_of(&[13, 32, 48, 58]) as u8),
            5 => line = [&line[..end as usize], b" : 0 0\n"].concat(),
            6 => line = [&line[..end as usize], b" 123456789\n"].concat(),
            7 => {
                let length = self.below(300) as usize;
                line = [&b"13 12345678".repeat(length / 11 + 1)[..length], b"\n"].concat();
            }
            8 => {
                let other = self.below(101);
                line = format!("{other} 1 2\n").into_bytes();
            }
            9 => line = [&b"13"[..], &b" 99999999".repeat(self.below(10) as usize), b"\n"].concat(),
            10 => {
                line = (0..self.below(20))
                    .map(|_| self.one_of(&[32, 48, 49, 50, 51, 58]) as u8)
                    .chain(*b"\n")
                    .collect()
            }
            _ => line = [b" ", &line[..]].concat(),
        }
        self.raw(&line);
    }

    fn tape_number(&mut self) {
        let number = if self.chance(50) {
            self.wild()
        } else {
            self.below(100_000_000)
        };
        self.call(29, &[number]);
    }

    // A call of the input stage, now and then another; also made where it has no place.
    fn input_call(&mut self) {
        match self.below(1_000) {
            0..=14 => self.account_line(),
            15..=24 => {
                if self.may_list() || self.book().series.len() == 32 || self.chance(20) {
                    self.series_line();
                }
            }
            25..=444 => self.trade(),
            445..=524 => self.leg_call(15),
            525..=574 => self.leg_call(16),
            575..=644 => self.leg_call(17),
            645..=724 => self.position(),
            725..=784 => {
                let (account, series, quantity) = (self.account(), self.series(), self.quantity());
                self.call(20, &[account, series, quantity]);
            }
            785..=799 => {
                let request = self.number(self.book().requests());
                self.call(21, &[request]);
            }
            800..=839 => self.criterion(),
            840..=879 => self.denial(),
            880..=881 => {
                let price = self.price();
                self.call(24, &[price]);
            }
            882..=929 => self.shares(25),
            930..=954 => self.shares(26),
            955..=956 => self.call(27, &[]),
            957..=969 => self.tape_number(),
            970..=983 => self.misplaced(),
            _ => self.faulty(),
        }
    }

    fn account_line(&mut self) {
        let participant = if self.chance(30) { self.wild() } else { self.from(1, 6) };
        let kind = self.code(4);
        self.call(11, &[participant, kind]);
    }

    // An opening, an assignment, a statement or a next day.
    fn misplaced(&mut self) {
        let day = self.book().day;
        match self.below(14) {
            0..=4 => {
                let size = self.wild();
                self.call(10, &[7, day, size, 3]);
            }
            5..=7 => self.call(30, &[]),
            8..=10 => self.call(31, &[]),
            _ => self.call(32, &[day + 1]),
        }
    }

    // So many shorts, shares and requests that the statement is long.
    fn many_requests(&mut self) {
        for account in 1..=self.book().accounts.len() as u32 {
            let shares = self.book().size * 10;
            self.call(25, &[account, shares]);
        }
        for _ in 0..128 {
            let (series, buyer, seller) = (self.series(), self.account(), self.account());
            let quantity = 20 * self.book().block;
            self.call(13, &[series, buyer, 1, seller, 1, quantity, 1_000]);
        }
        for _ in 0..self.from(100, 140) {
            let (mut account, mut series) = (self.account(), self.series());
            for _ in 0..10 {
                let (a, s) = (account.wrapping_sub(1) as usize, series.wrapping_sub(1) as usize);
                if a < 32 && s < 32 && self.book().cells[s][a].longs > 0 {
                    break;
                }
                (account, series) = (self.account(), self.series());
            }
            let quantity = self.from(1, 10 * self.book().block);
            self.call(20, &[account, series, quantity.min(100_000)]);
        }
    }

    fn draws_after_cut(&self) -> u32 {
        let mut trial = self.program.clone();
        match trial.perform(28, &[]) {
            Ok(_) => trial.book.map_or(0, |b| b.draws_needed()),
            Err(_) => 0,
        }
    }

    // Fixing price, closing and the cut, with no more due than a tape has draws for.
    fn cut(&mut self) {
        if self.chance(600) {
            self.call(27, &[]);
            for _ in 0..self.below(4) {
                self.input_call();
            }
        }
        let expiring = (0..self.book().series.len()).any(|s| self.book().expires_today(s));
        if expiring && self.chance(300) && self.book().fixing.is_none() {
            self.call(28, &[]);
        }
        if self.book().stage == Stage::Input && (expiring || self.chance(300)) {
            let price = 40_000 + 250 * self.below(80);
            self.call(24, &[price]);
        }
        let mut request = 0;
        while self.draws_after_cut() > 1_024 && request < self.book().requests() && !self.full() {
            if self.book().pending(request) {
                self.call(21, &[request as u32 + 1]);
            }
            request += 1;
        }
        for series in 0..self.book().series.len() {
            for account in 0..self.book().accounts.len() {
                if self.book().expires_today(series) && self.draws_after_cut() > 1_024 {
                    self.call(23, &[account as u32 + 1, series as u32 + 1, 100_000]);
                }
            }
        }
        self.call(28, &[]);
    }

    fn assignment(&mut self) {
        for _ in 0..self.below(4) {
            self.input_call();
        }
        while self.book().stage == Stage::Cut && !self.full() {
            let needed = self.book().draws_needed() as usize;
            if self.program.tape.len() >= needed || self.chance(8) {
                self.call(30, &[]);
                continue;
            }
            self.tape_number();
        }
    }

    fn end_day(&mut self, step: u32) {
        for _ in 0..self.below(4) {
            if self.chance(600) {
                self.call(31, &[])
            } else {
                self.input_call()
            }
        }
        if self.chance(50) {
            let day = self.wild().min(self.book().day);
            self.call(32, &[day]);
        }
        if self.chance(20) {
            let day = self.one_of(&[100_000, 99_999_999, 0]);
            self.call(32, &[day]);
        }
        if self.chance(4) {
            for _ in 0..1_030 - self.program.tape.len().min(1_030) {
                self.tape_number();
            }
        }
        let day = self.book().day + self.from(1, step);
        self.call(32, &[day]);
    }

    // Calls before there is a book, and openings out of range.
    fn before_opening(&mut self) {
        self.call(11, &[1, 1]);
        self.call(13, &[1, 1, 1, 2, 1, 4, 1_200]);
        for kind in [28, 30, 31] {
            self.call(kind, &[]);
        }
        self.call(32, &[5]);
        self.tape_number();
        let highest = [9_999, 99_999, 10_000, 1_000];
        for at in 0..4 {
            for wrong in [0, highest[at] + 1] {
                let mut fields = highest;
                fields[at] = wrong;
                self.call(10, &fields);
            }
        }
    }

    // A book with accounts, some series, and twelve that last.
    fn opening(&mut self, small: bool) {
        let block = if small {
            self.one_of(&[1, 2, 3, 7, 20, 100, 1_000])
        } else {
            5
        };
        let size = if small {
            self.one_of(&[1, 100, 500, 10_000])
        } else {
            500
        };
        let day = if small && self.chance(200) {
            99_800
        } else {
            self.from(1, 100)
        };
        self.call(10, &[7, day, size, block]);
        let accounts = if small { self.from(2, 32) } else { 30 };
        for _ in 0..accounts {
            let (participant, kind) = (self.from(1, 6), self.from(1, 6).min(4));
            self.call(11, &[participant, kind]);
        }
        for _ in 0..6 {
            self.series_line();
        }
        for strike in [42_000, 45_000, 48_000, 50_000, 52_000, 55_000] {
            self.call(12, &[1, strike, 99_999]);
            self.call(12, &[2, strike, 99_999]);
        }
    }

    fn day(&mut self, step: u32) {
        let calls = match self.below(10) {
            0..=2 => self.from(5, 60),
            3..=8 => self.from(100, 350),
            _ => self.from(500, 900),
        };
        if self.chance(20) {
            self.many_requests();
        }
        for _ in 0..calls {
            self.input_call();
        }
        self.cut();
        self.assignment();
        self.end_day(step);
    }
}

fn main() -> std::io::Result<()> {
    let mut words = std::env::args().skip(1).map(|w| w.parse::<usize>().expect("a number"));
    let (seed, wanted) = (words.next().expect("a seed"), words.next().expect("a number of lines"));
    let small = wanted < 100_000;
    let mut maker = Maker {
        state: seed as u64,
        program: Program::default(),
        answer: Vec::new(),
        out: Vec::new(),
        made: 0,
        wanted,
    };
    maker.before_opening();
    maker.opening(small);
    while !maker.full() {
        maker.day(if small { 12 } else { 20 });
    }
    // The last piece has no line feed.
    maker.out.extend_from_slice(b"24 5");
    std::io::stdout().lock().write_all(&maker.out)
}
