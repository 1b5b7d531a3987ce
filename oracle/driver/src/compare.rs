//! Asks one function about many inputs on two threads and keeps count of what departs.

use crate::bits::{cost, cost_of, hex};
use crate::inputs::{fill, Form};
use std::collections::BTreeMap;

const THREADS: u64 = 2;

/// How one input came out.
pub enum Verdict {
    Same,
    /// It departs as it is known to, for this reason.
    Listed(&'static str),
    Failed,
}

/// Inputs that came out alike: how many, and the plainest of them.
#[derive(Clone)]
pub struct Group {
    pub many: u64,
    pub plainest: Vec<f64>,
    pub child: usize,
}

impl Group {
    fn join(&mut self, other: Group) {
        self.many += other.many;
        if cost_of(&other.plainest) < cost_of(&self.plainest) {
            (self.plainest, self.child) = (other.plainest, other.child);
        }
    }

    /// The plainest input as the fields of a question.
    pub fn input(&self, form: Form) -> String {
        let mut fields: Vec<String> = self.plainest.iter().map(|x| hex(*x)).collect();
        if form.children() > 1 {
            fields.push(self.child.to_string());
        }
        fields.join(",")
    }
}

/// What came out of all inputs.
#[derive(Default)]
pub struct Tally {
    pub compared: u64,
    pub listed: BTreeMap<&'static str, Group>,
    pub failed: Option<Group>,
}

impl Tally {
    fn note(&mut self, verdict: Verdict, numbers: &[f64], child: usize) {
        self.compared += 1;
        let group = || Group { many: 1, plainest: numbers.to_vec(), child };
        match verdict {
            Verdict::Same => {}
            Verdict::Listed(reason) => self.listed(reason, group()),
            Verdict::Failed => self.failed(group()),
        }
    }

    fn listed(&mut self, reason: &'static str, group: Group) {
        match self.listed.get_mut(reason) {
            Some(have) => have.join(group),
            None => drop(self.listed.insert(reason, group)),
        }
    }

    fn failed(&mut self, group: Group) {
        match &mut self.failed {
            Some(have) => have.join(group),
            None => self.failed = Some(group),
        }
    }

    fn join(&mut self, other: Tally) {
        self.compared += other.compared;
        for (reason, group) in other.listed {
            self.listed(reason, group);
        }
        if let Some(group) = other.failed {
            self.failed(group);
        }
    }
}

/// Numbers that a plainer input may have.
const PLAIN: [f64; 5] = [0.0, 1.0, 2.0, f64::NAN, f64::INFINITY];

/// Replaces numbers of a group's input by plainer ones as long as it comes out the same.
fn simplify(group: &mut Group, comes_out: impl Fn(&[f64], usize) -> bool) {
    loop {
        let mut lists = plainer(&group.plainest).into_iter();
        match lists.find(|numbers| comes_out(numbers, group.child)) {
            Some(numbers) => group.plainest = numbers,
            None => return,
        }
    }
}

/// The lists in which one number is plainer, wherever it stands or at one place alone.
pub fn plainer(numbers: &[f64]) -> Vec<Vec<f64>> {
    let mut lists = Vec::new();
    for (place, old) in numbers.iter().enumerate() {
        for new in PLAIN.into_iter().filter(|new| cost(*new) < cost(*old)) {
            let everywhere = |x: &f64| if x.to_bits() == old.to_bits() { new } else { *x };
            lists.push(numbers.iter().map(everywhere).collect());
            let mut list = numbers.to_vec();
            list[place] = new;
            lists.push(list);
        }
    }
    lists
}

/// Judges inputs 0 up to `count`, and makes the inputs that are shown as plain as can be.
pub fn run(form: Form, count: u64, judge: impl Fn(&[f64], usize) -> Verdict + Sync) -> Tally {
    let share = |thread: u64| {
        let mut tally = Tally::default();
        let mut numbers = vec![0.0; form.floats()];
        for i in (thread..count).step_by(THREADS as usize) {
            let child = fill(form, i, count, &mut numbers);
            tally.note(judge(&numbers, child), &numbers, child);
        }
        tally
    };
    let mut all = Tally::default();
    std::thread::scope(|scope| {
        let share = &share;
        let threads: Vec<_> = (0..THREADS).map(|t| scope.spawn(move || share(t))).collect();
        for thread in threads {
            all.join(thread.join().expect("a thread of the comparison stopped"));
        }
    });
    for (reason, group) in &mut all.listed {
        simplify(group, |n, child| matches!(judge(n, child), Verdict::Listed(r) if r == *reason));
    }
    if let Some(group) = &mut all.failed {
        simplify(group, |n, child| matches!(judge(n, child), Verdict::Failed));
    }
    all
}
