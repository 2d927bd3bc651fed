//! What the program reads: an order line and a plan, or why they are refused.

use std::fmt;

pub const MOST_TASKS: usize = 16;
const LONGEST_HYPERPERIOD: u64 = 1_000_000_000;
const HEAD_BITS: usize = 16;
const ROW_BITS: usize = 232;

// ---------------------------------------------------------------- refusals

pub struct Refusal {
    layer: char,
    number: u8,
    row: Option<usize>,
    bit: Option<usize>,
}

fn refuse<T>(layer: char, number: u8, row: Option<usize>, bit: Option<usize>) -> Result<T, Refusal> {
    Err(Refusal { layer, number, row, bit })
}

impl fmt::Display for Refusal {
    fn fmt(&self, out: &mut fmt::Formatter) -> fmt::Result {
        let place = |place: Option<usize>| place.map_or("-".to_string(), |number| number.to_string());
        writeln!(out, "REFUSED {} {} {} {}", self.layer, self.number, place(self.row), place(self.bit))
    }
}

// ---------------------------------------------------------------- the order line

#[derive(Clone, Copy, PartialEq)]
pub enum Policy {
    FixedPriority,
    EarliestDeadline,
}

#[derive(Clone, Copy, PartialEq)]
pub enum Model {
    NoDelay,
    FixedDelay,
    UsefulBlocks,
    LoadedBlocks,
}

#[derive(Clone, Copy)]
pub struct Order {
    pub policy: Policy,
    pub non_preemptive: bool,
    pub model: Model,
}

pub fn read_order(line: &[u8]) -> Result<Order, Refusal> {
    let policy = match line.first() {
        Some(b'F') => Policy::FixedPriority,
        Some(b'E') => Policy::EarliestDeadline,
        _ => return refuse('O', 16, None, Some(0)),
    };
    let non_preemptive = match line.get(1) {
        Some(b'-') => false,
        Some(b'N') => true,
        _ => return refuse('O', 16, None, Some(8)),
    };
    let model = match line.get(2) {
        Some(b'Z') => Model::NoDelay,
        Some(b'A') => Model::FixedDelay,
        Some(b'U') => Model::UsefulBlocks,
        Some(b'L') => Model::LoadedBlocks,
        _ => return refuse('O', 16, None, Some(16)),
    };
    match line.get(3) {
        Some(b'\n') => Ok(Order { policy, non_preemptive, model }),
        _ => refuse('O', 16, None, Some(24)),
    }
}

// ---------------------------------------------------------------- the plan

#[derive(Clone, Copy, Default)]
pub struct Task {
    pub offset: u32,
    pub period: u32,
    pub deadline: u32,
    pub work: u32,
    pub priority: u8,
    pub fixed_delay: u32,
    pub useful: u64,
    pub evicting: u64,
}

pub struct Plan {
    pub count: usize,
    pub block_reload_time: u32,
    pub tasks: [Task; MOST_TASKS],
    pub greatest_offset: u32,
    pub hyperperiod: u32,
}

/// The field of this width that begins at this bit; the first bit is the most significant one.
fn field(bytes: &[u8], first: usize, width: usize) -> u64 {
    (first..first + width).fold(0, |value, bit| value << 1 | u64::from(bytes[bit / 8] >> (7 - bit % 8) & 1))
}

fn greatest_common_divisor(a: u64, b: u64) -> u64 {
    if b == 0 { a } else { greatest_common_divisor(b, a % b) }
}

fn read_row(bytes: &[u8], row: usize) -> Result<Task, Refusal> {
    let start = HEAD_BITS + ROW_BITS * row;
    let at = |first, width| field(bytes, start + first, width);
    if 8 * bytes.len() < start + ROW_BITS {
        return refuse('B', 1, Some(row), Some(8 * bytes.len()));
    }
    if at(228, 4) != 0 {
        return refuse('B', 4, Some(row), Some(start + 228));
    }
    let task = Task {
        offset: at(0, 20) as u32,
        period: at(20, 20) as u32,
        deadline: at(40, 20) as u32,
        work: at(60, 20) as u32,
        priority: at(80, 8) as u8,
        fixed_delay: at(88, 12) as u32,
        useful: at(100, 64),
        evicting: at(164, 64),
    };
    if task.period == 0 {
        return refuse('P', 5, Some(row), Some(start + 20));
    }
    if !(1 <= task.work && task.work <= task.deadline && task.deadline <= task.period) {
        return refuse('P', 6, Some(row), Some(start + 60));
    }
    if task.useful & !task.evicting != 0 {
        return refuse('P', 7, Some(row), Some(start + 100));
    }
    Ok(task)
}

pub fn read_plan(bytes: &[u8]) -> Result<Plan, Refusal> {
    if bytes.len() < 2 {
        return refuse('B', 1, None, Some(8 * bytes.len()));
    }
    if field(bytes, 0, 4) != 1 {
        return refuse('B', 3, None, Some(0));
    }
    if field(bytes, 14, 2) != 0 {
        return refuse('B', 4, None, Some(14));
    }
    let count = field(bytes, 4, 4) as usize + 1;
    let mut tasks = [Task::default(); MOST_TASKS];
    let mut hyperperiod = 1;
    for row in 0..count {
        tasks[row] = read_row(bytes, row)?;
        let period = u64::from(tasks[row].period);
        hyperperiod = hyperperiod / greatest_common_divisor(hyperperiod, period) * period;
        if hyperperiod > LONGEST_HYPERPERIOD {
            return refuse('P', 8, Some(row), None);
        }
    }
    let end = HEAD_BITS + ROW_BITS * count;
    if 8 * bytes.len() > end {
        return refuse('B', 2, None, Some(end));
    }
    Ok(Plan {
        count,
        block_reload_time: field(bytes, 8, 6) as u32,
        tasks,
        greatest_offset: tasks.iter().map(|task| task.offset).max().unwrap_or(0),
        hyperperiod: hyperperiod as u32,
    })
}
