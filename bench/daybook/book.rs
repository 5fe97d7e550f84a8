// A day book in plain Rust, written from the documents: the tape, the book and its calls.
use std::collections::VecDeque;

const ACCOUNTS: usize = 32;
const SERIES: usize = 32;
const LEGS: usize = 256;
const REQUESTS: usize = 128;
const TAPE: usize = 1_024;
const STATEMENT: usize = 256;
const LONGS: u32 = 100_000;
const PRICE: u32 = 1_000_000;
const SHARES: u32 = 99_999_999;
const LAST_DAY: u32 = 99_999;

// The result of an accepted call, or reply and result of a refused one.
pub type Answer = Result<u32, (u32, u32)>;

#[derive(Clone, Copy, Default)]
pub struct Cell {
    pub longs: u32,
    pub shorts: u32,
    pub denied: u32,
    pub due: u32,
    pub exercised: u32,
    pub assigned: u32,
    pub covered: u32,
}

#[derive(Clone, Copy, Default)]
pub struct Criterion {
    form: u32,
    value: u32,
}

#[derive(Clone, Copy)]
pub struct Account {
    pub participant: u32,
    kind: u32,
    pub collateral: u32,
    own: [Option<Criterion>; 2],
}

#[derive(Clone, Copy)]
pub struct Series {
    right: u32,
    strike: u32,
    pub expiry: u32,
}

#[derive(Clone, Copy)]
pub struct Leg {
    pub account: usize,
    series: usize,
    buy: bool,
    effect: u32,
    quantity: u32,
    closed: u32,
    pub held_for: Option<u32>,
}

#[derive(Clone, Copy)]
struct Request {
    account: usize,
    series: usize,
    quantity: u32,
    pending: bool,
}

#[derive(Clone, Copy, PartialEq)]
pub enum Stage {
    Input,
    Cut,
    Assigned,
}

#[derive(Clone)]
pub struct Book {
    pub day: u32,
    pub previous: u32,
    pub size: u32,
    pub block: u32,
    pub stage: Stage,
    pub trading: bool,
    pub fixing: Option<u32>,
    house: [Criterion; 2],
    pub accounts: Vec<Account>,
    pub series: Vec<Series>,
    pub cells: [[Cell; ACCOUNTS]; SERIES],
    pub legs: Vec<Leg>,
    requests: Vec<Request>,
}

#[derive(Clone, Default)]
pub struct Program {
    pub tape: VecDeque<u32>,
    pub book: Option<Box<Book>>,
    pub statement: Vec<[u64; 10]>,
}

fn refuse<T>(reply: u32) -> Result<T, (u32, u32)> {
    Err((reply, 0))
}

fn check(passed: bool, reply: u32) -> Result<(), (u32, u32)> {
    if passed {
        Ok(())
    } else {
        refuse(reply)
    }
}

fn within(value: u32, low: u32, high: u32) -> Result<(), (u32, u32)> {
    check(low <= value && value <= high, 3)
}

// Books a leg into a cell; answers its closed part.
fn book_leg(cell: &mut Cell, buy: bool, effect: u32, quantity: u32) -> u32 {
    let (own, other) = if buy {
        (&mut cell.longs, &mut cell.shorts)
    } else {
        (&mut cell.shorts, &mut cell.longs)
    };
    let closed = if effect == 2 { quantity.min(*other) } else { 0 };
    *other -= closed;
    *own += quantity - closed;
    closed
}

impl Program {
    pub fn perform(&mut self, kind: u32, f: &[u32]) -> Answer {
        self.statement.clear();
        if kind == 29 {
            check(self.tape.len() < TAPE, 18)?;
            self.tape.push_back(f[0]);
            return Ok(0);
        }
        if kind == 10 {
            check(self.book.is_none(), 1)?;
            self.book = Some(Box::new(Book::open(f[0], f[1], f[2], f[3])?));
            return Ok(0);
        }
        let Some(book) = &mut self.book else {
            return refuse(1);
        };
        let stage = match kind {
            30 => Stage::Cut,
            31 | 32 => Stage::Assigned,
            _ => Stage::Input,
        };
        check(book.stage == stage, 1)?;
        match kind {
            30 => book.assign(&mut self.tape),
            31 => book.state(&mut self.statement),
            32 => book.next_day(f[0]),
            _ => book.input_call(kind, f),
        }
    }
}

impl Book {
    fn open(number: u32, day: u32, size: u32, block: u32) -> Result<Book, (u32, u32)> {
        within(number, 1, 9_999)?;
        within(day, 1, LAST_DAY)?;
        within(size, 1, 10_000)?;
        within(block, 1, 1_000)?;
        Ok(Book {
            day,
            previous: 0,
            size,
            block,
            stage: Stage::Input,
            trading: true,
            fixing: None,
            house: [Criterion { form: 2, value: 1 }; 2],
            accounts: Vec::with_capacity(ACCOUNTS),
            series: Vec::with_capacity(SERIES),
            cells: [[Cell::default(); ACCOUNTS]; SERIES],
            legs: Vec::with_capacity(LEGS),
            requests: Vec::with_capacity(REQUESTS),
        })
    }

    fn input_call(&mut self, kind: u32, f: &[u32]) -> Answer {
        match kind {
            11 => self.add_account(f[0], f[1]),
            12 => self.list(f[0], f[1], f[2]),
            13 => self.trade(f[0], [f[1], f[3]], [f[2], f[4]], f[5], f[6]),
            15 => self.transfer_trade(f[0], f[1]),
            16 => self.give_up(f[0], f[1]),
            17 => self.take_up(f[0], f[1], f[2]),
            19 => self.transfer_position(f[0], f[1], f[2], f[3], f[4]),
            20 => self.request(f[0], f[1], f[2]),
            21 => self.reject(f[0]),
            22 => self.criterion(f[0], f[1], f[2], f[3]),
            23 => self.deny(f[0], f[1], f[2]),
            24 => self.fix(f[0]),
            25 => self.lodge(f[0], f[1]),
            26 => self.withdraw(f[0], f[1]),
            27 => {
                self.trading = false;
                Ok(0)
            }
            _ => self.cut(),
        }
    }

    fn account(&self, number: u32) -> Result<usize, (u32, u32)> {
        check(1 <= number && number as usize <= self.accounts.len(), 4)?;
        Ok(number as usize - 1)
    }

    fn series(&self, number: u32) -> Result<usize, (u32, u32)> {
        check(1 <= number && number as usize <= self.series.len(), 5)?;
        Ok(number as usize - 1)
    }

    fn live_series(&self, number: u32) -> Result<usize, (u32, u32)> {
        let series = self.series(number)?;
        check(self.series[series].expiry > self.previous, 7)?;
        Ok(series)
    }

    fn leg(&self, number: u32) -> Result<usize, (u32, u32)> {
        check(1 <= number && number as usize <= self.legs.len(), 6)?;
        Ok(number as usize - 1)
    }

    pub fn expires_today(&self, series: usize) -> bool {
        let expiry = self.series[series].expiry;
        self.previous < expiry && expiry <= self.day
    }

    pub fn longs(&self, series: usize) -> u32 {
        self.cells[series][..self.accounts.len()].iter().map(|c| c.longs).sum()
    }

    fn add_account(&mut self, participant: u32, kind: u32) -> Answer {
        within(participant, 1, 99)?;
        within(kind, 1, 4)?;
        check(self.accounts.len() < ACCOUNTS, 18)?;
        self.accounts.push(Account {
            participant,
            kind,
            collateral: 0,
            own: [None; 2],
        });
        Ok(self.accounts.len() as u32)
    }

    fn list(&mut self, right: u32, strike: u32, expiry: u32) -> Answer {
        within(right, 1, 2)?;
        within(strike, 1, PRICE)?;
        within(expiry, self.day, LAST_DAY)?;
        let same = |s: &Series| s.right == right && s.strike == strike && s.expiry == expiry;
        check(!self.series.iter().any(same), 13)?;
        check(self.series.len() < SERIES, 18)?;
        self.series.push(Series { right, strike, expiry });
        Ok(self.series.len() as u32)
    }

    fn trade(&mut self, series: u32, parties: [u32; 2], effects: [u32; 2], quantity: u32, price: u32) -> Answer {
        within(effects[0], 1, 2)?;
        within(effects[1], 1, 2)?;
        within(quantity, 1, LONGS)?;
        within(price, 1, PRICE)?;
        let accounts = [self.account(parties[0])?, self.account(parties[1])?];
        let series = self.live_series(series)?;
        check(self.trading, 8)?;
        check(self.legs.len() + 2 <= LEGS, 18)?;
        let before = accounts.map(|a| self.cells[series][a]);
        let mut closed = [0; 2];
        for i in 0..2 {
            closed[i] = book_leg(&mut self.cells[series][accounts[i]], i == 0, effects[i], quantity);
        }
        if self.longs(series) > LONGS {
            for i in 0..2 {
                self.cells[series][accounts[i]] = before[i];
            }
            return refuse(20);
        }
        for i in 0..2 {
            self.legs.push(Leg {
                account: accounts[i],
                series,
                buy: i == 0,
                effect: effects[i],
                quantity,
                closed: closed[i],
                held_for: None,
            });
        }
        Ok(self.legs.len() as u32 - 1)
    }

    // Moves a leg to another account and frees it.
    fn move_leg(&mut self, at: usize, to: usize) -> Answer {
        let leg = self.legs[at];
        let row = &mut self.cells[leg.series];
        let before = (row[leg.account], row[to]);
        let open = leg.quantity - leg.closed;
        let old = &mut row[leg.account];
        let (own, other) = if leg.buy {
            (&mut old.longs, &mut old.shorts)
        } else {
            (&mut old.shorts, &mut old.longs)
        };
        check(*own >= open, 19)?;
        *own -= open;
        *other += leg.closed;
        let closed = book_leg(&mut row[to], leg.buy, leg.effect, leg.quantity);
        if self.longs(leg.series) > LONGS {
            let row = &mut self.cells[leg.series];
            row[leg.account] = before.0;
            row[to] = before.1;
            return refuse(20);
        }
        self.legs[at] = Leg {
            account: to,
            closed,
            held_for: None,
            ..leg
        };
        Ok(0)
    }

    fn transfer_trade(&mut self, leg: u32, to: u32) -> Answer {
        let to = self.account(to)?;
        let at = self.leg(leg)?;
        let leg = &self.legs[at];
        let participant = self.accounts[leg.account].participant;
        check(leg.account != to && self.accounts[to].participant == participant, 9)?;
        check(leg.held_for.is_none(), 10)?;
        self.move_leg(at, to)
    }

    fn give_up(&mut self, leg: u32, participant: u32) -> Answer {
        within(participant, 1, 99)?;
        let at = self.leg(leg)?;
        check(self.accounts[self.legs[at].account].participant != participant, 9)?;
        check(self.legs[at].held_for.is_none(), 10)?;
        self.legs[at].held_for = Some(participant);
        Ok(0)
    }

    fn take_up(&mut self, leg: u32, answer: u32, account: u32) -> Answer {
        check(answer == 1 || answer == 2 && account == 0, 3)?;
        let to = if answer == 1 { self.account(account)? } else { 0 };
        let at = self.leg(leg)?;
        let Some(participant) = self.legs[at].held_for else {
            return refuse(10);
        };
        if answer == 2 {
            self.legs[at].held_for = None;
            return Ok(0);
        }
        check(self.accounts[to].participant == participant, 9)?;
        self.move_leg(at, to)
    }

    fn transfer_position(&mut self, from: u32, to: u32, series: u32, side: u32, quantity: u32) -> Answer {
        within(side, 1, 2)?;
        within(quantity, 1, LONGS)?;
        let (from, to) = (self.account(from)?, self.account(to)?);
        let series = self.live_series(series)?;
        check(
            from != to && self.accounts[from].participant == self.accounts[to].participant,
            9,
        )?;
        let row = &mut self.cells[series];
        if side == 1 {
            check(row[from].longs >= quantity, 19)?;
            row[from].longs -= quantity;
            row[to].longs += quantity;
        } else {
            check(row[from].shorts >= quantity, 19)?;
            row[from].shorts -= quantity;
            row[to].shorts += quantity;
        }
        Ok(0)
    }

    fn request(&mut self, account: u32, series: u32, quantity: u32) -> Answer {
        within(quantity, 1, LONGS)?;
        let account = self.account(account)?;
        let series = self.live_series(series)?;
        check(self.requests.len() < REQUESTS, 18)?;
        self.requests.push(Request {
            account,
            series,
            quantity,
            pending: true,
        });
        Ok(self.requests.len() as u32)
    }

    fn reject(&mut self, number: u32) -> Answer {
        check(1 <= number && number as usize <= self.requests.len(), 6)?;
        let request = &mut self.requests[number as usize - 1];
        check(request.pending, 6)?;
        request.pending = false;
        Ok(0)
    }

    pub fn requests(&self) -> usize {
        self.requests.len()
    }

    pub fn pending(&self, at: usize) -> bool {
        self.requests[at].pending
    }

    fn criterion(&mut self, account: u32, right: u32, form: u32, value: u32) -> Answer {
        within(right, 1, 2)?;
        within(form, 0, 2)?;
        within(value, 0, [0, 10_000, 1_000_000][form as usize])?;
        check(form != 0 || account != 0, 3)?;
        let place = right as usize - 1;
        if account == 0 {
            check(self.trading, 8)?;
            self.house[place] = Criterion { form, value };
            return Ok(0);
        }
        let account = self.account(account)?;
        check(self.trading, 8)?;
        self.accounts[account].own[place] = if form == 0 {
            None
        } else {
            Some(Criterion { form, value })
        };
        Ok(0)
    }

    fn deny(&mut self, account: u32, series: u32, quantity: u32) -> Answer {
        within(quantity, 0, LONGS)?;
        let account = self.account(account)?;
        let series = self.live_series(series)?;
        check(self.expires_today(series), 12)?;
        self.cells[series][account].denied = quantity;
        Ok(0)
    }

    fn fix(&mut self, price: u32) -> Answer {
        within(price, 1, PRICE)?;
        self.fixing = Some(price);
        Ok(0)
    }

    fn lodge(&mut self, account: u32, shares: u32) -> Answer {
        within(shares, 1, SHARES)?;
        let account = self.account(account)?;
        let collateral = &mut self.accounts[account].collateral;
        check(*collateral + shares <= SHARES, 20)?;
        *collateral += shares;
        Ok(0)
    }

    fn withdraw(&mut self, account: u32, shares: u32) -> Answer {
        within(shares, 1, SHARES)?;
        let account = self.account(account)?;
        let collateral = &mut self.accounts[account].collateral;
        check(*collateral >= shares, 19)?;
        *collateral -= shares;
        Ok(0)
    }

    // Whether a series meets an account's criterion at the fixing price.
    fn meets(&self, account: &Account, series: &Series) -> bool {
        let place = series.right as usize - 1;
        let criterion = account.own[place].unwrap_or(self.house[place]);
        let (strike, price) = (i64::from(series.strike), i64::from(self.fixing.unwrap_or(0)));
        let difference = if series.right == 1 {
            price - strike
        } else {
            strike - price
        };
        let value = i64::from(criterion.value);
        difference >= 0
            && if criterion.form == 1 {
                difference * 10_000 >= value * strike
            } else {
                difference >= value
            }
    }

    fn cut(&mut self) -> Answer {
        let expiring = (0..self.series.len()).any(|s| self.expires_today(s));
        check(!expiring || self.fixing.is_some(), 14)?;
        for leg in &mut self.legs {
            leg.held_for = None;
        }
        let mut requested = [[0; ACCOUNTS]; SERIES];
        for request in self.requests.iter().filter(|r| r.pending) {
            requested[request.series][request.account] += request.quantity;
        }
        for s in 0..self.series.len() {
            for a in 0..self.accounts.len() {
                let account = self.accounts[a];
                let automatic = self.expires_today(s) && self.meets(&account, &self.series[s]);
                let cell = &mut self.cells[s][a];
                if account.kind != 4 {
                    let both = cell.longs.min(cell.shorts);
                    cell.longs -= both;
                    cell.shorts -= both;
                }
                let mut wanted = requested[s][a];
                if automatic {
                    wanted += cell.longs.saturating_sub(cell.denied);
                }
                cell.due = wanted.min(cell.longs);
            }
        }
        self.stage = Stage::Cut;
        Ok(0)
    }

    fn due(&self, series: usize) -> u32 {
        self.cells[series].iter().map(|c| c.due).sum()
    }

    pub fn draws_needed(&self) -> u32 {
        (0..self.series.len()).map(|s| self.due(s).div_ceil(self.block)).sum()
    }

    // Assigns so many contracts of a series to its shorts.
    fn allocate(&mut self, series: usize, exercised: u32, tape: &mut VecDeque<u32>) {
        let accounts = self.accounts.len();
        let row = &mut self.cells[series][..accounts];
        let mut remaining: u32 = row.iter().map(|c| c.shorts).sum();
        let mut left = exercised;
        while left > 0 {
            let mut skip = tape.pop_front().expect("the supply was judged") % remaining;
            let count = left.min(self.block);
            let mut need = count;
            let mut at = 0;
            while need > 0 {
                let cell = &mut row[at];
                let open = cell.shorts - cell.assigned;
                let passed = skip.min(open);
                let taken = need.min(open - passed);
                skip -= passed;
                need -= taken;
                cell.assigned += taken;
                at = if at + 1 == accounts { 0 } else { at + 1 };
            }
            left -= count;
            remaining -= count;
        }
    }

    fn assign(&mut self, tape: &mut VecDeque<u32>) -> Answer {
        let needed = self.draws_needed();
        if (tape.len() as u32) < needed {
            return Err((16, needed));
        }
        for s in 0..self.series.len() {
            let due = self.due(s);
            self.allocate(s, due, tape);
            let lapses = self.expires_today(s);
            let call = self.series[s].right == 1;
            for (cell, account) in self.cells[s].iter_mut().zip(&mut self.accounts) {
                cell.exercised = cell.due;
                if call {
                    cell.covered = cell.assigned.min(account.collateral / self.size);
                    account.collateral -= cell.covered * self.size;
                }
                cell.longs = if lapses { 0 } else { cell.longs - cell.exercised };
                cell.shorts = if lapses { 0 } else { cell.shorts - cell.assigned };
            }
        }
        self.stage = Stage::Assigned;
        Ok(needed)
    }

    fn state(&self, lines: &mut Vec<[u64; 10]>) -> Answer {
        for (s, series) in self.series.iter().enumerate() {
            for (a, cell) in self.cells[s][..self.accounts.len()].iter().enumerate() {
                let uncovered = cell.assigned - cell.covered;
                for (role, method, contracts) in [(1, 2, cell.exercised), (2, 1, cell.covered), (2, 2, uncovered)] {
                    if contracts == 0 {
                        continue;
                    }
                    let shares = u64::from(contracts) * u64::from(self.size);
                    let money = shares * u64::from(series.strike);
                    let receives = (role == 1) == (series.right == 1);
                    let [received, delivered, paid, gained] = if receives {
                        [shares, 0, money, 0]
                    } else {
                        [0, shares, 0, money]
                    };
                    lines.push([
                        s as u64 + 1,
                        a as u64 + 1,
                        role,
                        method,
                        u64::from(contracts),
                        received,
                        delivered,
                        paid,
                        gained,
                        u64::from(self.day) + 2,
                    ]);
                }
            }
        }
        let count = lines.len();
        if count > STATEMENT {
            lines.clear();
            return Err((17, count as u32));
        }
        Ok(count as u32)
    }

    fn next_day(&mut self, day: u32) -> Answer {
        within(day, 1, LAST_DAY)?;
        check(day > self.day, 15)?;
        self.previous = self.day;
        self.day = day;
        self.legs.clear();
        self.requests.clear();
        self.fixing = None;
        self.trading = true;
        for cell in self.cells.iter_mut().flatten() {
            *cell = Cell {
                longs: cell.longs,
                shorts: cell.shorts,
                ..Cell::default()
            };
        }
        self.stage = Stage::Input;
        Ok(0)
    }
}
