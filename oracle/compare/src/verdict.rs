//! What became of one input, and the tally of all.

use hingevale::Refusal;
use std::collections::{BTreeMap, BTreeSet};
use std::fmt::Debug;
use std::time::{Duration, Instant};

/// `Ok` has the class it is counted under, `Err` the difference.
pub type Verdict = Result<String, String>;

/// The class of a refusal that the rules add: the Rust isn't asked.
pub fn ruled(number: u32) -> String {
    format!("outside, refused by the rules, {number}")
}

pub fn refused(number: u32) -> Refusal {
    Refusal { number, place: 0 }
}

pub fn same<T: PartialEq + Debug>(what: &str, ours: T, theirs: T) -> Result<(), String> {
    if ours == theirs { Ok(()) } else { Err(format!("{what}: {ours:?}, and the Rust {theirs:?}")) }
}

/// The same for what the rules say where the Rust isn't asked.
pub fn due<T: PartialEq + Debug>(what: &str, ours: T, rules: T) -> Result<(), String> {
    if ours == rules { Ok(()) } else { Err(format!("{what}: {ours:?}, and by the rules {rules:?}")) }
}

/// An input that is judged, and made smaller where it differs.
pub trait Case: Sized {
    fn judge(&self) -> Verdict;
    fn smaller(&self) -> Vec<Self>;
    fn show(&self) -> String;
}

/// The smallest input on this way down that still differs, or as far as two seconds come: a width of a thousand million goes down one by one at
/// last, and a table of 65,536 sections takes its time at each try.
pub fn minimised<C: Case>(mut case: C) -> C {
    let begun = Instant::now();
    loop {
        let smaller = case.smaller().into_iter().take_while(|_| begun.elapsed() < Duration::from_secs(2));
        match smaller.into_iter().find(|c| c.judge().is_err()) {
            Some(c) => case = c,
            None => return case,
        }
    }
}

#[derive(Default)]
pub struct Tally {
    pub inputs: u64,
    pub differences: u64,
    pub known: u64,
    /// What has been reported: one difference of each kind of input and field.
    told: BTreeSet<String>,
    kinds: BTreeMap<String, BTreeMap<String, u64>>,
}

impl Tally {
    /// Judges one input, and reports a difference with the smallest input that shows it.
    pub fn take<C: Case>(&mut self, kind: &str, case: C) {
        self.inputs += 1;
        let class = match case.judge() {
            Ok(class) => class,
            Err(text) => self.difference(kind, case, text),
        };
        if !self.kinds.contains_key(kind) {
            self.kinds.insert(kind.into(), BTreeMap::new());
        }
        let classes = self.kinds.get_mut(kind).unwrap();
        match classes.get_mut(&class) {
            Some(n) => *n += 1,
            None => _ = classes.insert(class, 1),
        }
    }

    fn difference<C: Case>(&mut self, kind: &str, case: C, text: String) -> String {
        if let Some(entry) = crate::known::KNOWN.iter().find(|k| text.contains(k.0)) {
            self.known += 1;
            return format!("differs as known: {}", entry.1);
        }
        self.differences += 1;
        let told = format!("{kind}, {}", text.split(':').next().unwrap_or(""));
        if self.told.insert(told) {
            let small = minimised(case);
            let text = small.judge().err().unwrap_or(text);
            println!("DIFFERENCE ({kind}): {text}\n  smallest input: {}", small.show());
        }
        "DIFFERS".into()
    }

    pub fn report(&self) {
        for (kind, classes) in &self.kinds {
            println!("{kind}: {}", classes.values().sum::<u64>());
            for (class, n) in classes {
                println!("    {n:>10}  {class}");
            }
        }
        let outside: u64 = self.kinds.values().flatten().filter(|(class, _)| class.starts_with("outside")).map(|(_, n)| n).sum();
        println!("{} inputs: {} compared with the Rust, {outside} outside of the comparison", self.inputs, self.inputs - outside);
        println!("{} differences not known, {} known", self.differences, self.known);
    }
}

pub fn hex(bytes: &[u8]) -> String {
    bytes.iter().map(|b| format!("{b:02X}")).collect::<Vec<_>>().join(" ")
}
