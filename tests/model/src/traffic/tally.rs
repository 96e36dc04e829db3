//! What random calls met, counted.

use super::asked::*;
use super::histories::*;
use super::placing::{STEPS, STEPS_OF_A_LIBRARY};
use super::readings::READINGS;
use super::through::*;
use super::{nonce_of, Done};
use crate::records::GROUP_BIT;
use std::fmt::Display;

/// Rows 0 to 34; some of them are no answer of gate or format.
const ROWS: usize = 35;

/// How often each row was the answer, how often another row applied beside it, how often the frame had a twin, and what calls met of
/// changes 3, 5 and 6.
pub struct Tally {
    pub rows: [u64; ROWS],
    pub pairs: [[u64; ROWS]; ROWS],
    pub beside_a_twin: [u64; BESIDE_A_TWIN.len()],
    pub steps: [u64; STEPS.len()],
    pub steps_of_a_library: [u64; STEPS_OF_A_LIBRARY.len()],
    pub needs: [u64; NEEDS.len()],
    pub loads: [u64; LOADS.len()],
    pub near_loads: [u64; NEAR_LOADS.len()],
    pub faults: [u64; FAULTS.len()],
    pub faulty_lines: [u64; FAULTY_LINES.len()],
    pub after: [u64; AFTER.len()],
    pub needs_of_a_library: [u64; NEEDS_OF_A_LIBRARY.len()],
    pub grants: [u64; GRANTS.len()],
    pub forms: [u64; FORMS.len()],
    pub misfits: [u64; MISFITS.len()],
    pub faults_of_lists: [u64; FAULTS_OF_LISTS.len()],
    pub members: [u64; MEMBERS.len()],
    pub histories: [u64; HISTORIES.len()],
    pub forms_by_a_table: [u64; FORMS_BY_A_TABLE.len()],
    pub readings: [u64; READINGS.len()],
    pub forms_of_a_library: [u64; FORMS_OF_A_LIBRARY.len()],
    pub by_bit_7: u64,
    pub unsound: u64,
}

/// What [`Tally::beside_a_twin`] counts.
pub(super) const BESIDE_A_TWIN: [&str; 3] =
    ["grants beside a twin", "grants beside a twin, one of the two for the partition", "repeats beside a twin"];

/// What [`Tally::by_bit_7`] counts.
const BY_BIT_7: &str = "grants through a group by bit 7 of a mask that a record has";

/// What [`Tally::unsound`] counts.
const UNSOUND: &str = "calls answered row 1 by an unsound record";

impl Default for Tally {
    fn default() -> Tally {
        Tally {
            rows: [0; ROWS],
            pairs: [[0; ROWS]; ROWS],
            beside_a_twin: [0; BESIDE_A_TWIN.len()],
            steps: [0; STEPS.len()],
            steps_of_a_library: [0; STEPS_OF_A_LIBRARY.len()],
            needs: [0; NEEDS.len()],
            loads: [0; LOADS.len()],
            near_loads: [0; NEAR_LOADS.len()],
            faults: [0; FAULTS.len()],
            faulty_lines: [0; FAULTY_LINES.len()],
            after: [0; AFTER.len()],
            needs_of_a_library: [0; NEEDS_OF_A_LIBRARY.len()],
            grants: [0; GRANTS.len()],
            forms: [0; FORMS.len()],
            misfits: [0; MISFITS.len()],
            faults_of_lists: [0; FAULTS_OF_LISTS.len()],
            members: [0; MEMBERS.len()],
            histories: [0; HISTORIES.len()],
            forms_by_a_table: [0; FORMS_BY_A_TABLE.len()],
            readings: [0; READINGS.len()],
            forms_of_a_library: [0; FORMS_OF_A_LIBRARY.len()],
            by_bit_7: 0,
            unsound: 0,
        }
    }
}

fn add<const N: usize>(counts: &mut [u64; N], met: [bool; N]) {
    for (count, met) in counts.iter_mut().zip(met) {
        *count += met as u64;
    }
}

/// The names of [`READINGS`].
fn readings() -> Vec<String> {
    READINGS.iter().map(|reading| format!("calls answered otherwise if {}", reading.what)).collect()
}

fn print_met(names: &[impl Display], counts: &[u64]) {
    for (what, n) in names.iter().zip(counts) {
        println!("met {what}: {n}");
    }
}

impl Tally {
    pub fn count(&mut self, done: &Done) {
        self.rows[done.row as usize] += 1;
        for beside in done.rows.iter().skip(1) {
            self.pairs[done.row as usize][*beside as usize] += 1;
        }
        if !done.twins.is_empty() {
            let of_the_partition = done.twins.contains(&0) || nonce_of(&done.call.frame).object == 0;
            add(&mut self.beside_a_twin, [done.row == 0, done.row == 0 && of_the_partition, done.row == 12]);
        }
        if let Some(placing) = done.placing {
            add(&mut self.steps, placing.met());
            add(&mut self.steps_of_a_library, placing.met_in_a_library());
        }
        if let Some(asked) = done.asked {
            self.count_needs(asked);
        }
        if let Some(near) = near_load(&done.call.frame, done.row) {
            self.near_loads[near] += 1;
        }
        if let Some(through) = done.through {
            self.count_groups(through, done.asked);
        }
        self.unsound += (done.row == 1 && !done.sound) as u64;
    }

    fn count_groups(&mut self, through: &Through, asked: Option<&Asked>) {
        add(&mut self.grants, through.granted());
        add(&mut self.forms, through.met());
        add(&mut self.misfits, through.met_by_its_form());
        add(&mut self.faults_of_lists, through.met_by_a_list());
        add(&mut self.members, through.met_by_a_member());
        add(&mut self.histories, through.met_after());
        add(&mut self.readings, through.told_apart());
        add(&mut self.forms_of_a_library, through.met_in_a_library());
        if let Some(asked) = asked.filter(|_| through.is_through_a_group()) {
            let (row, decided) = (through.row(), asked.decided_by_a_load());
            add(&mut self.forms_by_a_table, [(row == 7 || row == 13) && decided, row == 0 && decided]);
            let bit_7 = asked.by_the_table().is_some_and(|need| need.mask & GROUP_BIT as u32 != 0);
            self.by_bit_7 += (row == 0 && bit_7) as u64;
        }
    }

    fn count_needs(&mut self, asked: &Asked) {
        add(&mut self.needs, asked.met());
        add(&mut self.loads, asked.met_by_a_load());
        add(&mut self.after, asked.met_after());
        add(&mut self.needs_of_a_library, asked.met_in_a_library());
        if let Some((fault, operation)) = asked.only_fault() {
            self.faults[fault] += 1;
            self.faulty_lines[operation as usize - 1] += 1;
        }
    }

    /// What is counted of change 5 in every run: names and numbers.
    pub(super) fn of_tables(&self) -> [(&[&str], &[u64]); 6] {
        [
            (&NEEDS, &self.needs),
            (&LOADS, &self.loads),
            (&NEAR_LOADS, &self.near_loads),
            (&FAULTS, &self.faults),
            (&FAULTY_LINES, &self.faulty_lines),
            (&AFTER, &self.after),
        ]
    }

    /// What is counted of change 6 in every run: names and numbers.
    pub(super) fn of_groups(&self) -> [(&[&str], &[u64]); 5] {
        [
            (&FORMS, &self.forms),
            (&MISFITS, &self.misfits),
            (&MEMBERS, &self.members),
            (&HISTORIES, &self.histories),
            (&FORMS_BY_A_TABLE, &self.forms_by_a_table),
        ]
    }

    /// What each run of the tests has to meet often: the new forms, and each kind of broken list.
    pub(super) fn often(&self) -> [(&[&str], &[u64]); 2] {
        [(&GRANTS, &self.grants), (&FAULTS_OF_LISTS, &self.faults_of_lists)]
    }

    /// Lines `row R: N`; then lines `met WHAT: N` of what the differential tests ask for (`tests/model/met`); then beside which other
    /// rows each row was the answer, so that the lowest had to win.
    pub fn print(&self) {
        for (row, n) in self.rows.iter().enumerate().filter(|(_, n)| **n > 0) {
            println!("row {row}: {n}");
        }
        print_met(&BESIDE_A_TWIN, &self.beside_a_twin);
        print_met(&STEPS, &self.steps);
        for (names, counts) in self.of_tables().into_iter().chain(self.of_groups()) {
            print_met(names, counts);
        }
        for (names, counts) in self.often() {
            print_met(&names.iter().map(|name| format!("often {name}")).collect::<Vec<String>>(), counts);
        }
        print_met(&readings(), &self.readings);
        let met = self.pairs.iter().flatten().filter(|n| **n > 0).count();
        println!("pairs of an answer and another row that applied: {met}");
        for (first, line) in self.pairs.iter().enumerate() {
            let with: Vec<String> =
                line.iter().enumerate().filter(|(_, n)| **n > 0).map(|(second, n)| format!("{second}:{n}")).collect();
            if !with.is_empty() {
                println!("  {first} beside {}", with.join(" "));
            }
        }
    }

    /// What a library meets besides, in such lines.
    pub fn print_of_a_library(&self) {
        print_met(&STEPS_OF_A_LIBRARY, &self.steps_of_a_library);
        print_met(&NEEDS_OF_A_LIBRARY, &self.needs_of_a_library);
        print_met(&FORMS_OF_A_LIBRARY, &self.forms_of_a_library);
        print_met(&[BY_BIT_7], &[self.by_bit_7]);
        print_met(&[UNSOUND], &[self.unsound]);
    }
}
