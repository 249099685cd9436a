//! Rewriting: a query on the view becomes a query on the roll.
//!
//! Each step of the view is replaced by a walk over hidden nodes of the roll that begins and ends at visible ones.
//! Such a walk is made to have no choice, like a finger that moves along the roll and stops at the first visible
//! node:
//!
//! - *child*: down, and down again from each hidden node, to a visible one;
//! - *parent*: up, and up again from each hidden node, to a visible one;
//! - *next*: leave the node; as long as the finger is on a hidden node go into it at its first child, or if it has
//!   none leave it too. To *leave* a node is to climb to its parent as long as there is no next sibling, and only to
//!   hidden parents since a visible one is where the siblings in the view end; then go to the next sibling;
//! - *previous*: the same with right and left exchanged.
//!
//! All else of a query is kept as it is: begun at a visible node it never leaves the visible ones, so `.`, `*` and
//! `!` mean there what they mean on the view. The filters of the annotation speak of the whole roll and stay
//! untouched.

use std::collections::HashMap;

use crate::annotation::{Annotation, Record};
use crate::table::{Entry, Entry::*};

/// The table of the rewritten query: the filter table as it is, and behind it the query for the roll.
pub fn rewrite(filters: &[Entry], annotation: &Annotation, query: &[Entry]) -> Vec<Entry> {
    let mut scribe = Scribe::behind(filters);
    let hidden = write_hidden(&mut scribe, annotation);
    let steps = Steps::write(&mut scribe, hidden);
    let mut carried: Vec<usize> = Vec::with_capacity(query.len());
    for entry in query {
        let number = carry(&mut scribe, &steps, entry, &carried);
        carried.push(number);
    }
    // What the query became may stand further up, as equal entries are written once; the last entry must be the query.
    let here = scribe.put(Itself);
    scribe.append(Then(here, carried[query.len() - 1]));
    scribe.table
}

/// One entry of the query, its steps replaced and its operands those that were carried over.
fn carry(scribe: &mut Scribe, steps: &Steps, entry: &Entry, carried: &[usize]) -> usize {
    let kept = match *entry {
        Child => return steps.child,
        Parent => return steps.parent,
        Next => return steps.next,
        Previous => return steps.previous,
        Stay(filter) => Stay(carried[filter]),
        Then(left, right) => Then(carried[left], carried[right]),
        Either(left, right) => Either(carried[left], carried[right]),
        Star(path) => Star(carried[path]),
        Leads(path) => Leads(carried[path]),
        Not(filter) => Not(carried[filter]),
        And(left, right) => And(carried[left], carried[right]),
        Or(left, right) => Or(carried[left], carried[right]),
        Itself | Label(_) | True | False => *entry,
    };
    scribe.put(kept)
}

/// The filter that holds at hidden nodes: climbing over nodes whose pair has no record leads to one whose record
/// refuses.
fn write_hidden(scribe: &mut Scribe, annotation: &Annotation) -> usize {
    let mut pairs = Vec::new();
    let mut granted = Vec::new();
    for record in &annotation.records {
        let pair = write_pair(scribe, record);
        pairs.push(pair);
        granted.push(scribe.put(And(pair, record.filter)));
    }
    // A node has one pair at most, so it is refused if it has one and is not granted.
    let decided = scribe.any(&pairs);
    let granted = scribe.any(&granted);
    let not_granted = scribe.put(Not(granted));
    let refused = scribe.put(And(decided, not_granted));
    let undecided = scribe.put(Not(decided));
    let up = scribe.put(Parent);
    let climb = scribe.while_at(undecided, up);
    let at_refused = scribe.put(Stay(refused));
    let to_refused = scribe.put(Then(climb, at_refused));
    scribe.put(Leads(to_refused))
}

/// The filter that holds at the nodes with a record's pair of labels.
fn write_pair(scribe: &mut Scribe, record: &Record) -> usize {
    let child = scribe.put(Label(record.child));
    let parent = scribe.put(Label(record.parent));
    let at_parent = scribe.put(Stay(parent));
    let up = scribe.put(Parent);
    let up_to_parent = scribe.put(Then(up, at_parent));
    let below_parent = scribe.put(Leads(up_to_parent));
    scribe.put(And(child, below_parent))
}

/// The steps of the view as paths of the roll.
struct Steps {
    child: usize,
    parent: usize,
    next: usize,
    previous: usize,
}

impl Steps {
    fn write(scribe: &mut Scribe, hidden: usize) -> Steps {
        let [child, parent, next, previous] = [Child, Parent, Next, Previous].map(|step| scribe.put(step));
        Steps {
            child: write_vertical(scribe, hidden, child),
            parent: write_vertical(scribe, hidden, parent),
            next: write_sideways(scribe, hidden, next, previous),
            previous: write_sideways(scribe, hidden, previous, next),
        }
    }
}

/// One step up or down, and more of them from hidden nodes, to a visible node.
fn write_vertical(scribe: &mut Scribe, hidden: usize, step: usize) -> usize {
    let onwards = scribe.while_at(hidden, step);
    let some = scribe.put(Then(step, onwards));
    write_until_visible(scribe, hidden, some)
}

/// The next node of the view, where `ahead` is the way to go and `behind` the other one.
fn write_sideways(scribe: &mut Scribe, hidden: usize, ahead: usize, behind: usize) -> usize {
    let leave = write_leave(scribe, hidden, ahead);
    let enter = write_enter(scribe, behind);
    let down = scribe.put(Child);
    let childless = scribe.put_none(down);
    let leave_childless = scribe.put(Then(childless, leave));
    let move_on = scribe.put(Either(enter, leave_childless));
    let search = scribe.while_at(hidden, move_on);
    let found = scribe.put(Then(leave, search));
    write_until_visible(scribe, hidden, found)
}

/// Leaves a node and all below it: up through hidden parents as long as nothing lies ahead, then one step ahead.
fn write_leave(scribe: &mut Scribe, hidden: usize, ahead: usize) -> usize {
    let up = scribe.put(Parent);
    let at_hidden = scribe.put(Stay(hidden));
    let up_to_hidden = scribe.put(Then(up, at_hidden));
    let at_end = scribe.put_none(ahead);
    let climb_once = scribe.put(Then(at_end, up_to_hidden));
    let climb = scribe.put(Star(climb_once));
    scribe.put(Then(climb, ahead))
}

/// Enters a node at the child that has none behind it.
fn write_enter(scribe: &mut Scribe, behind: usize) -> usize {
    let down = scribe.put(Child);
    let at_start = scribe.put_none(behind);
    scribe.put(Then(down, at_start))
}

fn write_until_visible(scribe: &mut Scribe, hidden: usize, path: usize) -> usize {
    let visible = scribe.put(Not(hidden));
    let at_visible = scribe.put(Stay(visible));
    scribe.put(Then(path, at_visible))
}

/// Writes entries behind the filter table, equal ones once.
struct Scribe {
    table: Vec<Entry>,
    written: HashMap<Entry, usize>,
}

impl Scribe {
    fn behind(filters: &[Entry]) -> Scribe {
        let written = filters.iter().enumerate().map(|(number, entry)| (*entry, number)).collect();
        Scribe { table: filters.to_vec(), written }
    }

    /// The number of the entry, which is written if it is not there yet.
    fn put(&mut self, entry: Entry) -> usize {
        match self.written.get(&entry) {
            Some(number) => *number,
            None => self.append(entry),
        }
    }

    fn append(&mut self, entry: Entry) -> usize {
        self.table.push(entry);
        self.written.insert(entry, self.table.len() - 1);
        self.table.len() - 1
    }

    /// Zero or more steps, each begun at a node where the filter holds.
    fn while_at(&mut self, filter: usize, step: usize) -> usize {
        let at = self.put(Stay(filter));
        let once = self.put(Then(at, step));
        self.put(Star(once))
    }

    /// Stays if the path leads nowhere.
    fn put_none(&mut self, path: usize) -> usize {
        let leads = self.put(Leads(path));
        let leads_nowhere = self.put(Not(leads));
        self.put(Stay(leads_nowhere))
    }

    /// The filter that holds where one of these does; halved again and again, so that its height grows as little as
    /// can be.
    fn any(&mut self, filters: &[usize]) -> usize {
        match filters {
            [] => self.put(False),
            [only] => *only,
            _ => {
                let (one_half, other_half) = filters.split_at(filters.len() / 2);
                let one = self.any(one_half);
                let other = self.any(other_half);
                self.put(Or(one, other))
            }
        }
    }
}
