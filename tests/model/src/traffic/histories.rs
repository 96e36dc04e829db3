//! What calls meet of change 6 because of what came before them: who wrote what they read, what was told of their group and member.

use super::through::Through;
use super::trail::Writer;
use crate::drive::Nonce;
use crate::records::*;

/// What is counted of what came before, in the order of [`Through::met_after`].
pub const HISTORIES: [&str; 19] = [
    "grants by a list written through the group itself",
    "row 32 by a list written through the group itself",
    "row 33 by a list written through the group itself",
    "calls answered by a list written through another group",
    "grants through a group that was no list before",
    "row 32 of a group that was a list before",
    "row 33 of a member reached before",
    "row 34 of a member reached before",
    "grants to a member that was not listed before",
    "grants to a member that was listed and missing before",
    "grants to a member raised after its group",
    "grants to a member that was deleted and created again",
    "row 15 with a version that the group had",
    "row 15 with the member's version",
    "reads through a group of what was written under the object's own credential",
    "reads through a group of what was written through another one",
    "reads under an object's own credential of what was written through a group",
    "grants under an object's own credential with the nonce of a frame through a group to it",
    "row 12 under a group's own credential after a frame through it",
];

/// What only a library's calls meet, in the order of [`Through::met_in_a_library`].
pub const FORMS_OF_A_LIBRARY: [&str; 4] = [
    "grants through a group that came from outside",
    "row 32 by a group that came from outside",
    "grants through a group to a member that came from outside",
    "row 23 of a group's frame",
];

impl Through {
    /// Which of [`HISTORIES`] it met.
    pub fn met_after(&self) -> [bool; HISTORIES.len()] {
        let (row, through) = (self.row(), self.is_through_a_group());
        let (granted, told, group) = (row == 0, self.told, &self.group_past);
        let reads = granted && self.r.operation == READ && self.r.b > 0;
        let (list_by, bytes_by) = (group.written.filter(|_| through), self.target_past.written);
        let itself = list_by == Some(Writer::Through(self.c.object));
        let (versions, member) = (self.object(self.c.object).map(|o| o.version), self.object(self.r.member));
        let raised = member.is_some_and(|o| self.target_past.raised && Some(o.version) > versions);
        let entered = |object, to| self.memory.iter().any(|(e, member)| *member == to && *e == self.nonce(object));
        [
            granted && itself,
            row == 32 && itself,
            row == 33 && itself,
            matches!(row, 0 | 32 | 33) && !itself && matches!(list_by, Some(Writer::Through(_))),
            through && granted && group.broken,
            through && row == 32 && told.reached,
            through && row == 33 && told.reached,
            through && row == 34 && told.reached,
            through && granted && told.unlisted,
            through && granted && told.missing,
            through && granted && raised,
            through && granted && self.target_past.again,
            through && row == 15 && group.versions.contains(&self.c.version),
            through && row == 15 && member.is_some_and(|o| o.version == self.c.version),
            through && reads && bytes_by == Some(Writer::Own),
            through && reads && matches!(bytes_by, Some(Writer::Through(other)) if other != self.c.object),
            !through && reads && matches!(bytes_by, Some(Writer::Through(_))),
            !through && granted && self.memory.iter().any(|(e, _)| entered(e.object, Some(self.c.object)) && e.object != self.c.object),
            !through && row == 12 && self.memory.iter().any(|(e, member)| member.is_some() && *e == self.nonce(self.c.object)),
        ]
    }

    /// Its nonce, if it were for this object.
    fn nonce(&self, object: u32) -> Nonce {
        Nonce { object, ..Nonce::of(&self.c, &self.r) }
    }

    /// Which of [`FORMS_OF_A_LIBRARY`] it met.
    pub fn met_in_a_library(&self) -> [bool; FORMS_OF_A_LIBRARY.len()] {
        let (row, through) = (self.row(), self.is_through_a_group());
        [
            through && row == 0 && self.group_past.outside,
            through && row == 32 && self.group_past.outside,
            through && row == 0 && self.target_past.outside && self.r.member != self.c.object,
            through && row == 23,
        ]
    }
}

#[cfg(test)]
mod tests {
    use super::super::through::tests::{listed, own, places, GROUP, LOG};
    use super::super::trail::{Past, Told};
    use super::*;

    #[test]
    fn what_came_before() {
        let written = |by, rows: &[u8]| {
            let group_past = Past { written: Some(by), ..Past::default() };
            places(Through { group_past, ..listed(LOG, LOOK, rows) }.met_after())
        };
        let itself = Writer::Through(GROUP);
        assert_eq!([written(itself, &[]), written(itself, &[32]), written(itself, &[33])], [[0], [1], [2]]);
        assert_eq!([written(Writer::Through(3), &[]), written(Writer::Through(3), &[33])], [[3], [3]]);
        assert_eq!([written(itself, &[15]), written(Writer::Own, &[])], [[]; 2]);
        let told = |told, rows: &[u8]| places(Through { told, ..listed(LOG, LOOK, rows) }.met_after());
        let all = Told { reached: true, unlisted: true, missing: true };
        assert_eq!([told(all, &[32]), told(all, &[33]), told(all, &[34]), told(all, &[])], [vec![5], vec![6], vec![7], vec![8, 9]]);
        let past = |group_past, target_past, rows: &[u8]| {
            places(Through { group_past, target_past, ..listed(LOG, LOOK, rows) }.met_after())
        };
        let (none, raised) = (Past::default(), Past { raised: true, again: true, ..Past::default() });
        assert_eq!(past(Past { broken: true, ..none.clone() }, none.clone(), &[]), [4]);
        assert_eq!([past(none.clone(), raised.clone(), &[]), past(none.clone(), raised, &[34])], [vec![10, 11], vec![]]);
        let old = Past { versions: vec![1, 2], ..none.clone() }; // the credential's version is 2
        assert_eq!([past(old.clone(), none.clone(), &[15]), past(old, none, &[])], [vec![12], vec![]]);
        let by_the_member = listed(LOG, LOOK, &[15]);
        let c = Credential { version: 3, ..by_the_member.c.clone() };
        assert_eq!(places(Through { c, ..by_the_member }.met_after()), [13]);
    }

    #[test]
    fn what_is_read_back() {
        let met = |call: Through, by| places(Through { target_past: Past { written: Some(by), ..Past::default() }, ..call }.met_after());
        assert_eq!([met(listed(LOG, READ, &[]), Writer::Own), met(listed(LOG, READ, &[]), Writer::Through(3))], [[14], [15]]);
        assert_eq!([met(listed(LOG, READ, &[]), Writer::Through(GROUP)), met(listed(LOG, WRITE, &[]), Writer::Own)], [[]; 2]);
        assert_eq!([met(own(LOG, READ, &[]), Writer::Through(3)), met(own(LOG, READ, &[]), Writer::Own)], [vec![16], vec![]]);
    }

    #[test]
    fn nonces_of_two_forms() {
        let met = |call: Through, object, member| {
            let entry = Nonce { object, ..Nonce::of(&call.c, &call.r) };
            places(Through { memory: vec![(entry, member)], ..call }.met_after())
        };
        assert_eq!([met(own(LOG, LOOK, &[]), GROUP, Some(LOG)), met(own(LOG, LOOK, &[]), GROUP, Some(3))], [vec![17], vec![]]);
        assert_eq!([met(own(GROUP, LOOK, &[12]), GROUP, Some(LOG)), met(own(GROUP, LOOK, &[12]), GROUP, None)], [vec![18], vec![]]);
    }

    #[test]
    fn in_a_library() {
        let outside = || Past { outside: true, ..Past::default() };
        let met = |group_past, target_past, rows: &[u8]| {
            places(Through { group_past, target_past, ..listed(LOG, LOOK, rows) }.met_in_a_library())
        };
        assert_eq!([met(outside(), Past::default(), &[]), met(outside(), Past::default(), &[32])], [[0], [1]]);
        assert_eq!([met(Past::default(), outside(), &[]), met(outside(), outside(), &[23])], [[2], [3]]);
    }
}
