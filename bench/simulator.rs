//! A plain simulator of the timing planner's schedule, tick by tick, written from docs/ alone.
//!
//! It reads what the planner reads, an order line and a plan, advances to a verdict or to instant 20,000,000, and prints
//! the report. It proves nothing. It is here to be compared with: the planner must print the same, in about the same time.
//!
//!     rustc -O --edition 2024 bench/simulator.rs && ./simulator < examples/s.F-L.in
//!
//! With `--lines`, each line that it reads is an input in hexadecimal digits, and an empty line follows each report.

mod input;

use input::{MOST_TASKS, Model, Order, Plan, Policy, Refusal, Task, read_order, read_plan};
use std::io::{self, Read, Write};

const LAST_INSTANT: u32 = 20_000_000;

// ---------------------------------------------------------------- the schedule

/// The live job of a task and the task's mark. Where no job is live, all but the mark is zero.
#[derive(Clone, Copy, Default, PartialEq)]
struct Slot {
    live: bool,
    begun: bool,
    left: u32,
    owed: u64,
    kept: u64,
    credit: u32,
}

/// What samples are compared by, and nothing else.
#[derive(Clone, Copy, Default, PartialEq)]
struct State {
    slots: [Slot; MOST_TASKS],
    running: Option<usize>,
}

/// The instants of a task's next job and of its live one, kept so that no tick divides or multiplies.
#[derive(Clone, Copy, Default)]
struct Dates {
    /// the number of the next job; the live one is the job before it
    next_job: u32,
    next_release: u32,
    release: u32,
    deadline: u32,
    /// the least is the most urgent
    rank: u32,
}

#[derive(Clone, Copy, Default)]
struct Summary {
    finished: u32,
    /// of the finished jobs; the age of the live one comes in with the report
    worst: u32,
    delay: u64,
}

enum Verdict {
    Open,
    Holds { k: u32, p: u32 },
    Misses { task: usize, job: u32 },
}

struct Simulator {
    plan: Plan,
    order: Order,
    /// of each task, the credit beyond which loaded blocks do not count
    most_credit: [u32; MOST_TASKS],
    clock: u32,
    state: State,
    dates: [Dates; MOST_TASKS],
    summaries: [Summary; MOST_TASKS],
}

impl Simulator {
    fn new(plan: Plan, order: Order) -> Self {
        Simulator {
            order,
            most_credit: plan.tasks.map(|task| task.useful.count_ones() * plan.block_reload_time),
            clock: 0,
            state: State::default(),
            dates: plan.tasks.map(|task| Dates { next_release: task.offset, ..Dates::default() }),
            summaries: [Summary::default(); MOST_TASKS],
            plan,
        }
    }

    /// Step 1: the jobs that are due become live.
    fn release(&mut self) {
        for task in 0..self.plan.count {
            let dates = &mut self.dates[task];
            if dates.next_release == self.clock {
                let Task { period, deadline, work, priority, .. } = self.plan.tasks[task];
                dates.release = self.clock;
                dates.deadline = self.clock + deadline;
                dates.next_release += period;
                dates.next_job += 1;
                dates.rank = match self.order.policy {
                    Policy::FixedPriority => 255 - u32::from(priority),
                    Policy::EarliestDeadline => dates.deadline,
                };
                let slot = &mut self.state.slots[task];
                *slot = Slot { live: true, begun: false, left: work, owed: 0, ..*slot };
            }
        }
    }

    /// Step 2: the most urgent live task, the lowest number among equals. The earliest deadline is the fewest ticks until it.
    fn choose(&self) -> Option<usize> {
        if self.order.non_preemptive && self.state.running.is_some() {
            return self.state.running;
        }
        let mut best = None;
        let mut least = u32::MAX;
        for task in 0..self.plan.count {
            let rank = self.dates[task].rank;
            if self.state.slots[task].live && rank < least {
                best = Some(task);
                least = rank;
            }
        }
        best
    }

    /// The job of a task loses the core to another task.
    fn lose(&mut self, task: usize, to: usize) {
        let slot = &mut self.state.slots[task];
        match self.order.model {
            Model::NoDelay => {}
            Model::FixedDelay => slot.kept = 1 << 63,
            Model::UsefulBlocks | Model::LoadedBlocks => slot.kept &= !self.plan.tasks[to].evicting,
        }
    }

    /// A job gets the core for the first time.
    fn begin(&mut self, task: usize) {
        let slot = &mut self.state.slots[task];
        match self.order.model {
            Model::NoDelay | Model::FixedDelay => {}
            Model::UsefulBlocks => slot.kept = self.plan.tasks[task].useful,
            Model::LoadedBlocks => {
                slot.kept = self.plan.tasks[task].useful;
                slot.credit = 0;
            }
        }
    }

    /// A job gets the core again; the answer is the delay that it pays.
    fn resume(&mut self, task: usize) -> u32 {
        let Task { useful, fixed_delay, .. } = self.plan.tasks[task];
        let reload = self.plan.block_reload_time;
        let slot = &mut self.state.slots[task];
        let missing = (useful & !slot.kept).count_ones();
        match self.order.model {
            Model::NoDelay => 0,
            Model::FixedDelay => {
                let preempted = slot.kept != 0;
                slot.kept = 0;
                if preempted { fixed_delay } else { 0 }
            }
            Model::UsefulBlocks => {
                slot.kept = useful;
                missing * reload
            }
            Model::LoadedBlocks => {
                let loaded = slot.credit.checked_div(reload).unwrap_or(0);
                let delay = missing.min(loaded) * reload;
                slot.kept = useful;
                slot.credit -= delay;
                delay
            }
        }
    }

    /// Step 3: all other jobs that have begun lose the core, and this one begins or resumes.
    fn switch_to(&mut self, task: usize) {
        for other in 0..self.plan.count {
            let Slot { live, begun, .. } = self.state.slots[other];
            if other != task && live && begun {
                self.lose(other, task);
            }
        }
        if self.state.slots[task].begun {
            let delay = u64::from(self.resume(task));
            self.state.slots[task].owed += delay;
            self.summaries[task].delay += delay;
        } else {
            self.begin(task);
            self.state.slots[task].begun = true;
        }
    }

    /// Step 4: a tick of reload, or of work where nothing is owed.
    fn spend(&mut self, task: usize) {
        let slot = &mut self.state.slots[task];
        if self.order.model == Model::LoadedBlocks {
            slot.credit = (slot.credit + 1).min(self.most_credit[task]);
        }
        if slot.owed > 0 {
            slot.owed -= 1;
        } else {
            slot.left -= 1;
        }
    }

    /// Step 5: where no work is left, the job finishes with the end of this tick.
    fn settle(&mut self, task: usize) {
        if self.state.slots[task].left > 0 {
            self.state.running = Some(task);
            return;
        }
        self.state.slots[task] = Slot::default();
        self.state.running = None;
        let response = self.clock + 1 - self.dates[task].release;
        let summary = &mut self.summaries[task];
        summary.finished += 1;
        summary.worst = summary.worst.max(response);
    }

    fn tick(&mut self) {
        self.release();
        match self.choose() {
            None => self.state.running = None,
            Some(task) => {
                if self.state.running != Some(task) {
                    self.switch_to(task);
                }
                self.spend(task);
                self.settle(task);
            }
        }
        self.clock += 1;
    }

    /// The first task with a live job that should have finished by now.
    fn late(&self) -> Option<usize> {
        (0..self.plan.count).find(|&task| self.state.slots[task].live && self.dates[task].deadline == self.clock)
    }

    /// How long ago the live job of a task was released; 0 where it has none.
    fn age(&self, task: usize) -> u32 {
        if self.state.slots[task].live { self.clock - self.dates[task].release } else { 0 }
    }

    /// Advances to a verdict or to the last instant.
    fn run(&mut self) -> Verdict {
        let mut k = 0;
        let mut next_sample = self.plan.greatest_offset;
        // the sample to compare with, and its number: the greatest power of two below k, or 0
        let mut kept = self.state;
        let mut p = 0;
        loop {
            if let Some(task) = self.late() {
                return Verdict::Misses { task, job: self.dates[task].next_job - 1 };
            }
            if self.clock == next_sample {
                if k > 0 && self.state == kept {
                    return Verdict::Holds { k, p };
                }
                if k == 0 || k.is_power_of_two() {
                    kept = self.state;
                    p = k;
                }
                k += 1;
                next_sample += self.plan.hyperperiod;
            }
            if self.clock == LAST_INSTANT {
                return Verdict::Open;
            }
            self.tick();
        }
    }

    fn report(&self, verdict: Verdict) -> String {
        let first = match verdict {
            Verdict::Open => format!("OPEN {}\n", self.clock),
            Verdict::Holds { k, p } => format!("HOLDS {} {k} {p}\n", self.clock),
            Verdict::Misses { task, job } => format!("MISSES {} {task} {job}\n", self.clock),
        };
        let line = |task: usize| {
            let Summary { finished, worst, delay } = self.summaries[task];
            format!("{task} {finished} {} {delay}\n", worst.max(self.age(task)))
        };
        first + &(0..self.plan.count).map(line).collect::<String>()
    }
}

// ---------------------------------------------------------------- the program

fn answer(input: &[u8]) -> Result<String, Refusal> {
    let order = read_order(input)?;
    let plan = read_plan(&input[4..])?;
    let mut simulator = Simulator::new(plan, order);
    let verdict = simulator.run();
    Ok(simulator.report(verdict))
}

fn report_on(input: &[u8]) -> String {
    answer(input).unwrap_or_else(|refusal| refusal.to_string())
}

/// The bytes that pairs of hexadecimal digits spell.
fn unhex(line: &str) -> Vec<u8> {
    let digit = |letter: u8| char::from(letter).to_digit(16).expect("a hexadecimal digit") as u8;
    line.as_bytes().chunks(2).map(|pair| 16 * digit(pair[0]) + digit(pair[1])).collect()
}

fn main() -> io::Result<()> {
    let mut out = io::stdout().lock();
    if std::env::args().nth(1).as_deref() == Some("--lines") {
        for line in io::stdin().lines() {
            writeln!(out, "{}", report_on(&unhex(&line?)))?;
        }
        return Ok(());
    }
    let mut input = Vec::new();
    io::stdin().read_to_end(&mut input)?;
    out.write_all(report_on(&input).as_bytes())
}
