//! Job files, read and written from the document alone.

use crate::limits::{plan_bytes, MACHINES, SPEED, STARTUP, TILES, WEIGHT};

#[derive(Clone, Debug, PartialEq)]
pub struct Job {
    /// The start-up work c of a job of the second edition; none in the first.
    pub startup: Option<u32>,
    pub speeds: Vec<u32>,
    /// The most tiles that each machine can take, 0 for no limit.
    pub holds: Vec<u16>,
    pub weights: Vec<u32>,
}

pub type Record = [u8; 8];

pub fn record(kind: u8, value: u32) -> Record {
    let v = value.to_le_bytes();
    [kind, 0, 0, 0, v[0], v[1], v[2], v[3]]
}

pub fn machine(speed: u32) -> Record {
    record(1, speed)
}

/// A machine that holds so many tiles: bytes 2 and 3, the lower one first.
pub fn holding(speed: u32, hold: u16) -> Record {
    let mut r = machine(speed);
    (r[2], r[3]) = ((hold % 256) as u8, (hold / 256) as u8);
    r
}

pub fn tile(weight: u32) -> Record {
    record(2, weight)
}

/// The first record of a job of the second edition.
pub fn head(startup: u32) -> Record {
    record(3, startup)
}

impl Job {
    /// A job of the first edition without holds.
    pub fn new(speeds: &[u32], weights: &[u32]) -> Job {
        Job::of(None, speeds, weights)
    }

    /// A job without holds.
    pub fn of(startup: Option<u32>, speeds: &[u32], weights: &[u32]) -> Job {
        Job::held(startup, speeds, &vec![0; speeds.len()], weights)
    }

    pub fn held(startup: Option<u32>, speeds: &[u32], holds: &[u16], weights: &[u32]) -> Job {
        assert_eq!(speeds.len(), holds.len());
        Job { startup, speeds: speeds.to_vec(), holds: holds.to_vec(), weights: weights.to_vec() }
    }

    /// The same job with these holds, and without any.
    pub fn holding(&self, holds: Vec<u16>) -> Job {
        assert_eq!(self.speeds.len(), holds.len());
        Job { holds, ..self.clone() }
    }

    pub fn unlimited(&self) -> Job {
        self.holding(vec![0; self.speeds.len()])
    }

    pub fn file(&self) -> Vec<u8> {
        let mut records: Vec<Record> = self.startup.iter().map(|&c| head(c)).collect();
        records.extend(self.speeds.iter().zip(&self.holds).map(|(&e, &h)| holding(e, h)));
        records.extend(self.weights.iter().map(|&w| tile(w)));
        records.concat()
    }

    pub fn is_second(&self) -> bool {
        self.startup.is_some()
    }

    /// The start-up work that counts: 0 in the first edition.
    pub fn c(&self) -> u128 {
        self.startup.unwrap_or(0) as u128
    }

    /// Whether any hold is set.
    pub fn has_holds(&self) -> bool {
        self.holds.iter().any(|&h| h > 0)
    }

    /// Whether there are not too few places for the tiles: some machine has no limit, or the holds add up to N or more.
    pub fn has_room(&self) -> bool {
        self.holds.contains(&0) || self.holds.iter().map(|&h| h as usize).sum::<usize>() >= self.weights.len()
    }

    /// Whether the machine, counted from 0, can take tiles a + 1 to b.
    pub fn keeps(&self, p: usize, a: usize, b: usize) -> bool {
        let hold = self.holds[p] as usize;
        hold == 0 || b - a <= hold
    }

    /// The weight of tiles a + 1 to b.
    pub fn weight(&self, a: usize, b: usize) -> u128 {
        self.weights[a..b].iter().map(|&w| w as u128).sum()
    }

    /// The load of a share of tiles a + 1 to b: the start-up work and their weight; 0 if there are none.
    pub fn load(&self, a: usize, b: usize) -> u128 {
        if a == b {
            return 0;
        }
        self.c() + self.weight(a, b)
    }
}

impl Job {
    /// The tests of one record in their order; a good one is added. Bytes 2 and 3 of a machine are its hold, of any other record they are 0.
    fn take(&mut self, r: &[u8], is_first: bool) -> Result<(), u32> {
        let value = u32::from_le_bytes([r[4], r[5], r[6], r[7]]);
        let hold = r[2] as u16 + 256 * r[3] as u16;
        let is_machine = r[0] == 1;
        let is_tile = r[0] == 2;
        let is_head = r[0] == 3;
        if !(is_machine || is_tile || is_head) || r[1] != 0 || (!is_machine && hold != 0) {
            return Err(3);
        }
        if is_machine && !self.weights.is_empty() {
            return Err(4);
        }
        if is_head && !is_first {
            return Err(15);
        }
        if is_machine && (value < 1 || value > SPEED) {
            return Err(5);
        }
        if is_tile && value > WEIGHT {
            return Err(6);
        }
        if is_head {
            if value > STARTUP {
                return Err(16);
            }
            self.startup = Some(value);
            return Ok(());
        }
        if is_machine {
            self.speeds.push(value);
            self.holds.push(hold);
        } else {
            self.weights.push(value);
        }
        Ok(())
    }
}

/// The tests of a file's length and records: its lists, however long, or the number of the refusal.
pub fn parse(file: &[u8]) -> Result<Job, u32> {
    if file.len() % 8 != 0 {
        return Err(2);
    }
    let mut job = Job::new(&[], &[]);
    for (k, r) in file.chunks(8).enumerate() {
        job.take(r, k == 0)?;
    }
    Ok(job)
}

/// The tests of the C call up to 9 in their order: the job, or the number of the refusal.
pub fn read(file: &[u8], method: u32, plan_len: usize) -> Result<Job, u32> {
    if method != 1 && method != 2 && method != 3 && method != 4 {
        return Err(1);
    }
    let job = parse(file)?;
    if job.speeds.is_empty() || job.speeds.len() > MACHINES {
        return Err(7);
    }
    if job.weights.len() > TILES {
        return Err(8);
    }
    if plan_len < plan_bytes(job.speeds.len()) {
        return Err(9);
    }
    Ok(job)
}

/// A plan as a list of (separator before, separator after, load, speed).
pub type Plan = Vec<[u32; 4]>;

/// The plan of a division.
pub fn plan_of(job: &Job, separators: &[usize]) -> Plan {
    let mut plan = Plan::new();
    for (p, &speed) in job.speeds.iter().enumerate() {
        let (a, b) = (separators[p], separators[p + 1]);
        plan.push([a as u32, b as u32, job.load(a, b) as u32, speed]);
    }
    plan
}

pub fn decode(bytes: &[u8]) -> Plan {
    let field = |r: &[u8], k: usize| u32::from_le_bytes(r[4 * k..4 * k + 4].try_into().unwrap());
    bytes.chunks_exact(16).map(|r| [field(r, 0), field(r, 1), field(r, 2), field(r, 3)]).collect()
}

pub fn encode(plan: &Plan) -> Vec<u8> {
    plan.iter().flat_map(|r| r.iter().flat_map(|f| f.to_le_bytes())).collect()
}
