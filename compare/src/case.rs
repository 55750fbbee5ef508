//! One case of a section: a table kept from call to call, each call made by
//! both programs and compared; and the tally of a section's cases.

use crate::archive::{run_archive, Empty};
use crate::call::{short, Call};
use crate::ceiling::ceiling_faults;
use crate::fill::listing_faults;
use crate::outcome::{differences, refusal_faults, Outcome};
use crate::random::Random;
use crate::salts;
use crate::second_program::run_second_program;
use crate::tables::{keys_in, slots_of, sound_table};
use reference::table::HEADER_WORDS;
use reference::Contents;
use std::panic::{catch_unwind, AssertUnwindSafe};
use std::time::Instant;

/// Differences of a section that are printed; the others are only counted.
const PRINTED: u64 = 20;

/// What to run of a section.
#[derive(Clone, Copy, Debug, Default)]
pub struct Plan {
    pub seed: u64,
    /// The only case to run.
    pub only: Option<u64>,
    /// When to begin no further case.
    pub deadline: Option<Instant>,
    /// Whether to print each call before it is made.
    pub trace: bool,
}

impl Plan {
    pub fn is_over(&self) -> bool {
        self.deadline.map_or(false, |end| Instant::now() >= end)
    }
}

/// A section's cases so far.
#[derive(Debug)]
pub struct Tally {
    pub section: &'static str,
    pub plan: Plan,
    pub cases: u64,
    pub calls: u64,
    pub failed: u64,
}

impl Tally {
    pub fn new(section: &'static str, plan: Plan) -> Tally {
        Tally {
            section,
            plan,
            cases: 0,
            calls: 0,
            failed: 0,
        }
    }

    /// The next case, unless it is not to be run. Each case has random numbers
    /// of its own, so that it can be run alone.
    pub fn case(&mut self, body: impl FnOnce(&mut Case)) {
        let number = self.cases;
        self.cases += 1;
        let chosen = self.plan.only.unwrap_or(number) == number;
        if !chosen || self.plan.is_over() {
            return;
        }
        let random = Random::of_case(self.section, self.plan.seed, number);
        body(&mut Case {
            tally: self,
            number,
            random,
            table: vec![],
            empty: Empty::Address,
        });
    }
}

/// A case: the table that its calls are lent, and its random numbers.
pub struct Case<'a> {
    tally: &'a mut Tally,
    number: u64,
    pub random: Random,
    pub table: Vec<u64>,
    pub empty: Empty,
}

impl Case<'_> {
    /// A salt that hangs on no keys.
    pub fn salt(&mut self) -> u64 {
        salts::any(&mut self.random)
    }

    /// An order and the keys, under some salt and measured or not.
    pub fn contents(&mut self, order: u64, keys: &[u64]) -> Contents {
        salts::contents(order, keys, &mut self.random)
    }

    /// The same under that salt.
    pub fn contents_under(&mut self, salt: u64, order: u64, keys: &[u64]) -> Contents {
        salts::contents_under(salt, order, keys, &mut self.random)
    }

    /// Lends a sound table from now on.
    pub fn lend(&mut self, slots: usize, contents: &Contents) {
        self.table = sound_table(slots, contents);
    }

    /// Makes the call by both programs and compares.
    pub fn call(&mut self, call: Call) -> Outcome {
        self.call_and_check(call, |_| None)
    }

    /// The same, and the archive must give this refusal, 0 for none.
    pub fn refused(&mut self, call: Call, refusal: u64) -> Outcome {
        self.call_and_check(call, |outcome| {
            let given = outcome.reply.refusal;
            (given != refusal).then(|| format!("refusal {given}, and {refusal} is due"))
        })
    }

    /// The same with any complaint about the archive's outcome. The second
    /// program's outcome is handed on and its table kept, so that a difference
    /// is not met again at every later call.
    pub fn call_and_check(
        &mut self,
        call: Call,
        complaint: impl FnOnce(&Outcome) -> Option<String>,
    ) -> Outcome {
        self.trace(&call);
        let archive = run_archive(&call, &self.table, self.empty);
        let (second, mut faults) = self.second(&call);
        faults.extend(complaint(&archive[0]));
        self.judge(&call, &archive, &second, faults);
        self.table.clone_from(&second.table);
        second
    }

    /// Counts a call that was made on the table with these outcomes, and reports
    /// it if the programs differ, if the archive's two differ or are wrong in
    /// themselves, if a lookup or a listed block goes beyond its ceiling or a listing
    /// has another fill than the rule's, or if there are faults already.
    pub fn judge(
        &mut self,
        call: &Call,
        [archive, elsewhere]: &[Outcome; 2],
        second: &Outcome,
        mut faults: Vec<String>,
    ) {
        if archive != elsewhere {
            faults.push("the archive answers otherwise at other addresses".to_string());
        }
        let before = Outcome::untouched(call, &self.table);
        faults.extend(differences(archive, second));
        faults.extend(refusal_faults(&before, archive));
        faults.extend(ceiling_faults(call, &self.table, archive));
        faults.extend(listing_faults(call, archive));
        self.tally.calls += 1;
        if !faults.is_empty() {
            self.report(call, archive, second, &faults);
        }
    }

    /// The second program's outcome. That it gave up is a fault too.
    fn second(&self, call: &Call) -> (Outcome, Vec<String>) {
        let run = AssertUnwindSafe(|| run_second_program(call, &self.table));
        match catch_unwind(run) {
            Ok(outcome) => (outcome, vec![]),
            Err(_) => {
                let gave_up = "the second program panicked".to_string();
                (Outcome::untouched(call, &self.table), vec![gave_up])
            }
        }
    }

    fn report(&mut self, call: &Call, archive: &Outcome, second: &Outcome, faults: &[String]) {
        self.tally.failed += 1;
        if self.tally.failed > PRINTED {
            return;
        }
        println!(
            "DIFFERENCE, again with: {}\n  call: {call:?}\n  table: {}\n  archive: {}\n  second: {}\n  {}",
            self.again(),
            describe_table(&self.table),
            describe_outcome(archive),
            describe_outcome(second),
            faults.join("\n  ")
        );
    }

    /// The arguments that run this one case.
    fn again(&self) -> String {
        let Tally { section, plan, .. } = &*self.tally;
        format!(
            "--section {section} --seed {} --case {}",
            plan.seed, self.number
        )
    }

    fn trace(&self, call: &Call) {
        if self.tally.plan.trace {
            let slots = slots_of(&self.table);
            eprintln!("{}: {slots:?} slots, {call:?}", self.again());
        }
    }
}

fn describe_table(table: &[u64]) -> String {
    let header = &table[..table.len().min(HEADER_WORDS)];
    format!(
        "{} words, slots {:?}, order, number, root and salt {header:?}, keys {}",
        table.len(),
        slots_of(table),
        short(&keys_in(table))
    )
}

fn describe_outcome(outcome: &Outcome) -> String {
    let Outcome { reply, place, .. } = outcome;
    let keys = short(&keys_in(&outcome.table));
    format!(
        "refusal {}, {:?}, {place:?}, keys {keys}",
        reply.refusal, reply.numbers
    )
}
