// The load of crates/pace in plain Rust: the same rules and the same calls, by hand and with no proof.
use std::env;
use std::hint::black_box;
use std::process::exit;

#[derive(Clone, Copy)]
struct Cell {
    init: Option<u64>,
    echo: [Option<u64>; 10],
    ready: [Option<u64>; 10],
    put: Option<u64>,
    echoed: Option<u64>,
    readied: Option<u64>,
    held: Option<u64>,
}

const BLANK: Cell = Cell { init: None, echo: [None; 10], ready: [None; 10], put: None, echoed: None, readied: None, held: None };

#[derive(Clone, Copy, PartialEq)]
enum Kind {
    Init,
    Echo,
    Ready,
}

struct Letters<'a> {
    n: usize,
    t: usize,
    faulty: u16,
    cells: &'a mut [Cell],
}

struct Move {
    from: usize,
    to: usize,
    kind: Kind,
    origin: usize,
    slot: usize,
}

impl<'a> Letters<'a> {
    fn new(n: usize, t: usize, faulty: u16, cells: &'a mut [Cell]) -> Self {
        cells[..2 * n * n].fill(BLANK);
        Letters { n, t, faulty, cells }
    }

    fn is_seat(&self, k: usize) -> bool {
        1 <= k && k <= self.n
    }

    fn is_sound(&self, k: usize) -> bool {
        self.is_seat(k) && (self.faulty >> (k - 1)) & 1 == 0
    }

    fn place(&self, to: usize, origin: usize, slot: usize) -> usize {
        ((to - 1) * self.n + (origin - 1)) * 2 + (slot - 1)
    }

    fn put(&mut self, seat: usize, slot: usize, code: u64) -> Result<(), u8> {
        if !self.is_seat(seat) || !(1..=2).contains(&slot) {
            return Err(5);
        }
        if !self.is_sound(seat) {
            return Err(6);
        }
        let i = self.place(seat, seat, slot);
        if self.cells[i].put.is_some() {
            return Err(9);
        }
        self.cells[i].put = Some(code);
        Ok(())
    }

    fn hand_over(&mut self, m: &Move) -> Result<(), u8> {
        if !self.is_seat(m.from) || !self.is_seat(m.to) || !self.is_seat(m.origin) || !(1..=2).contains(&m.slot) {
            return Err(5);
        }
        if m.kind == Kind::Init && m.from != m.origin {
            return Err(5);
        }
        if !self.is_sound(m.to) {
            return Err(6);
        }
        if !self.is_sound(m.from) {
            return Err(10);
        }
        let sender = &self.cells[self.place(m.from, m.origin, m.slot)];
        let sent = match m.kind {
            Kind::Init => sender.put,
            Kind::Echo => sender.echoed,
            Kind::Ready => sender.readied,
        };
        let code = sent.ok_or(10)?;
        let (n, t) = (self.n, self.t);
        let i = self.place(m.to, m.origin, m.slot);
        let cell = &mut self.cells[i];
        let votes = |by: &[Option<u64>; 10]| by[..n].iter().filter(|v| **v == Some(code)).count();
        match m.kind {
            Kind::Init => {
                if cell.init.is_some() {
                    return Err(11);
                }
                cell.init = Some(code);
                cell.echoed = Some(code);
            }
            Kind::Echo => {
                if cell.echo[m.from - 1].is_some() {
                    return Err(11);
                }
                cell.echo[m.from - 1] = Some(code);
                if cell.readied.is_none() && votes(&cell.echo) > (n + t) / 2 {
                    cell.readied = Some(code);
                }
            }
            Kind::Ready => {
                if cell.ready[m.from - 1].is_some() {
                    return Err(11);
                }
                cell.ready[m.from - 1] = Some(code);
                let votes = votes(&cell.ready);
                if cell.readied.is_none() && votes >= t + 1 {
                    cell.readied = Some(code);
                }
                if cell.held.is_none() && votes >= 2 * t + 1 {
                    cell.held = Some(code);
                }
            }
        }
        Ok(())
    }
}

// Each seat puts for both slots and every letter is handed over, as often as `rounds` says: how many of these were granted.
fn play(n: usize, t: usize, rounds: u64) -> u64 {
    let mut granted = 0;
    let mut cells = [BLANK; 200];
    for _ in 0..rounds {
        let mut letters = Letters::new(n, t, 0, &mut cells);
        for seat in 1..=n {
            for slot in 1..=2 {
                granted += letters.put(seat, slot, seat as u64).is_ok() as u64;
            }
        }
        for kind in [Kind::Init, Kind::Echo, Kind::Ready] {
            for from in 1..=n {
                for to in 1..=n {
                    for origin in 1..=n {
                        for slot in 1..=2 {
                            granted += letters.hand_over(&Move { from, to, kind, origin, slot }).is_ok() as u64;
                        }
                    }
                }
            }
        }
        black_box(letters.cells.last().map(|c| c.held));
    }
    granted
}

fn main() {
    let args: Vec<u64> = env::args().skip(1).filter_map(|word| word.parse().ok()).collect();
    let &[n, t, rounds] = args.as_slice() else {
        eprintln!("deliveries: expected N T ROUNDS");
        exit(1);
    };
    if n < 1 || n > 10 || t > 3 || 3 * t >= n {
        eprintln!("deliveries: no such roster");
        exit(1);
    }
    println!("{}", play(n as usize, t as usize, rounds));
}
