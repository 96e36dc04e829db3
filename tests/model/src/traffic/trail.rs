//! What came to pass with objects and groups so far, as far as the counts of change 6 ask for it.

use crate::drive::Nonce;
use crate::frame::Frame;
use crate::records::*;
use std::collections::{HashMap, HashSet};

/// Entries of this many grants through groups are kept: more than all memories hold.
const MOST_KEPT: usize = 400;

/// How bytes were last written.
#[derive(Clone, Copy, Debug, PartialEq, Eq)]
pub enum Writer {
    Own,          // under the object's own credential
    Through(u32), // through this group
}

/// Of an object that exists.
#[derive(Clone, Debug, Default, PartialEq, Eq)]
pub struct Past {
    pub written: Option<Writer>,
    pub raised: bool, // its version is from a raise
    pub again: bool,  // an object of its number was deleted before
    pub outside: bool, // it came from outside
    pub versions: Vec<u32>, // that it had before
    pub broken: bool, // row 32 was told of it
}

/// Of a group and a member: what was told so far.
#[derive(Clone, Copy, Debug, Default, PartialEq, Eq)]
pub struct Told {
    pub reached: bool,  // granted
    pub unlisted: bool, // row 33
    pub missing: bool,  // row 34
}

#[derive(Default)]
pub struct Trail {
    objects: HashMap<(u8, u32), Past>,
    gone: HashSet<(u8, u32)>,
    told: HashMap<(u8, u32, u32), Told>,
    entries: Vec<(u8, Nonce, u32)>, // of grants through a group: partition, nonce, member
}

impl Trail {
    pub fn past(&self, partition: u8, number: u32) -> Past {
        self.objects.get(&(partition, number)).cloned().unwrap_or_default()
    }

    pub fn was_deleted(&self, partition: u8, number: u32) -> bool {
        self.gone.contains(&(partition, number))
    }

    pub fn told(&self, partition: u8, group: u32, member: u32) -> Told {
        self.told.get(&(partition, group, member)).copied().unwrap_or_default()
    }

    /// The member that an entry was made for; none where it was not made through a group.
    pub fn member_of(&self, partition: u8, entry: &Nonce) -> Option<u32> {
        self.entries.iter().rev().find(|(p, e, _)| *p == partition && e == entry).map(|(.., member)| *member)
    }

    /// An object that came from outside.
    pub fn put(&mut self, partition: u8, number: u32) {
        self.forget(partition, number);
        self.objects.insert((partition, number), Past { outside: true, ..Past::default() });
    }

    fn forget(&mut self, partition: u8, number: u32) {
        self.objects.remove(&(partition, number));
        self.told.retain(|(p, group, _), _| (*p, *group) != (partition, number));
    }

    /// A call that was answered by this row.
    pub fn follow(&mut self, frame: &[u8], row: u8) {
        let Some(frame) = Frame::read(frame).filter(|_| row == 0 || (32..=34).contains(&row)) else { return };
        let (p, c, r) = (frame.c.partition, &frame.c, &frame.r);
        if frame.is_through_a_group() {
            self.follow_through(p, c.object, r.member, row);
        }
        if row != 0 {
            return;
        }
        let past = self.objects.entry((p, frame.target())).or_default();
        match r.operation {
            WRITE if r.b > 0 => past.written = Some(if frame.is_through_a_group() { Writer::Through(c.object) } else { Writer::Own }),
            RAISE => {
                past.raised = true;
                past.versions.push(c.version);
            }
            CREATE => {
                self.forget(p, r.a);
                self.objects.insert((p, r.a), Past { again: self.gone.contains(&(p, r.a)), ..Past::default() });
            }
            DELETE => {
                self.forget(p, c.object);
                self.gone.insert((p, c.object));
            }
            _ => {}
        }
        if frame.is_through_a_group() {
            self.entries.push((p, Nonce::of(c, r), r.member));
            let over = self.entries.len().saturating_sub(MOST_KEPT);
            self.entries.drain(..over);
        }
    }

    fn follow_through(&mut self, p: u8, group: u32, member: u32, row: u8) {
        let told = self.told.entry((p, group, member)).or_default();
        match row {
            0 => told.reached = true,
            32 => self.objects.entry((p, group)).or_default().broken = true,
            33 => told.unlisted = true,
            _ => told.missing = true,
        }
    }
}

#[cfg(test)]
mod tests {
    use super::*;
    use crate::gate::tests::{credential, frame, request};

    const GROUP: u32 = 5;
    const LOG: u32 = 9;

    fn own(object: u32, operation: u8, a: u32, b: u32) -> Vec<u8> {
        let r = request(operation, a, b);
        frame(&Credential { object, ..credential() }, &r, &vec![7; r.n as usize])
    }

    fn through(member: u32, operation: u8, b: u32, count: u32) -> Vec<u8> {
        let r = Request { mark: GROUP_MARK, member, count, ..request(operation, 0, b) };
        frame(&Credential { object: GROUP, rights: 0xff, ..credential() }, &r, &vec![7; r.n as usize])
    }

    #[test]
    fn who_wrote() {
        let mut trail = Trail::default();
        assert_eq!(trail.past(0, LOG), Past::default());
        trail.follow(&own(LOG, WRITE, 0, 1), 0);
        assert_eq!(trail.past(0, LOG).written, Some(Writer::Own));
        trail.follow(&through(LOG, WRITE, 1, 0), 0);
        assert_eq!((trail.past(0, LOG).written, trail.past(0, GROUP).written), (Some(Writer::Through(GROUP)), None));
        trail.follow(&through(GROUP, WRITE, 1, 0), 0);
        assert_eq!(trail.past(0, GROUP).written, Some(Writer::Through(GROUP)));
        for (frame, row) in [(own(LOG, WRITE, 0, 0), 0), (own(LOG, WRITE, 0, 1), 12), (own(LOG, READ, 0, 1), 0)] {
            trail.follow(&frame, row);
            assert_eq!(trail.past(0, LOG).written, Some(Writer::Through(GROUP)));
        }
        assert_eq!(trail.past(1, LOG), Past::default());
    }

    #[test]
    fn objects_come_and_go() {
        let mut trail = Trail::default();
        trail.follow(&own(0, CREATE, LOG, 1), 0);
        trail.follow(&own(LOG, RAISE, 0, 0), 0);
        assert_eq!(trail.past(0, LOG), Past { raised: true, versions: vec![2], ..Past::default() });
        assert!(!trail.was_deleted(0, LOG));
        trail.follow(&own(LOG, DELETE, 0, 0), 0);
        assert!(trail.was_deleted(0, LOG) && !trail.was_deleted(1, LOG));
        trail.follow(&own(0, CREATE, LOG, 1), 0);
        assert_eq!(trail.past(0, LOG), Past { again: true, ..Past::default() });
        trail.put(0, LOG);
        assert_eq!(trail.past(0, LOG), Past { outside: true, ..Past::default() });
    }

    #[test]
    fn what_was_told() {
        let mut trail = Trail::default();
        for row in [33, 34, 0, 32, 17] {
            trail.follow(&through(LOG, LOOK, 0, 0), row);
        }
        assert_eq!(trail.told(0, GROUP, LOG), Told { reached: true, unlisted: true, missing: true });
        assert!(trail.past(0, GROUP).broken && !trail.past(0, LOG).broken);
        assert_eq!([trail.told(0, GROUP, GROUP), trail.told(1, GROUP, LOG), trail.told(0, LOG, GROUP)], [Told::default(); 3]);
        trail.follow(&own(GROUP, DELETE, 0, 0), 0);
        assert_eq!((trail.told(0, GROUP, LOG), trail.past(0, GROUP)), (Told::default(), Past::default()));
    }

    #[test]
    fn whose_entries_there_are() {
        let mut trail = Trail::default();
        let nonce = |count| Nonce { slot: 0, holder: 1, time: 10_000, count, object: GROUP };
        trail.follow(&through(LOG, LOOK, 0, 1), 0);
        trail.follow(&through(GROUP, LOOK, 0, 2), 33);
        trail.follow(&own(GROUP, LOOK, 0, 0), 0);
        assert_eq!([0, 1, 2].map(|count| trail.member_of(0, &nonce(count))), [None, Some(LOG), None]);
        assert_eq!(trail.member_of(1, &nonce(1)), None);
        for count in 3..3 + MOST_KEPT as u32 {
            trail.follow(&through(LOG, LOOK, 0, count), 0);
        }
        assert_eq!([1, 3].map(|count| trail.member_of(0, &nonce(count))), [None, Some(LOG)]);
    }
}
