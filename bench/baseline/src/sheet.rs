//! What a text lays out: contexts, written sets, grants and properties. Contexts are numbered from 0 here.

use crate::operations::{Operations, ALL, EXECUTE, NONE, READ_LIKE, WRITE_LIKE};
use std::collections::BTreeMap;

/// As many pairs may have a written set that is not empty.
pub const CAPACITY: usize = 1024;

pub struct Context {
    pub name: Vec<u8>,
    pub level: usize,
    pub owner: usize,
}

/// A set of contexts: a mark for each.
pub type Marks = Vec<bool>;

pub struct Grant {
    pub subjects: Marks,
    pub targets: Marks,
    pub operations: Operations,
}

impl Grant {
    pub fn gives(&self, s: usize, t: usize) -> Operations {
        if self.subjects[s] && self.targets[t] {
            self.operations
        } else {
            NONE
        }
    }
}

#[derive(Clone, Copy, PartialEq, Eq, Debug)]
pub enum Template {
    Integrity,
    Confidentiality,
    Domain,
    Consistency,
}

pub struct Property {
    pub template: Template,
    pub first: Marks,
    /// Empty of marks for a domain.
    pub second: Marks,
}

/// Grants and properties by number.
pub struct Sheet {
    pub contexts: Vec<Context>,
    /// The operations that need equal owners.
    pub constrained: Operations,
    /// The written set of (s, t) at s * n + t.
    pub written: Vec<Operations>,
    pub grants: BTreeMap<usize, Grant>,
    pub properties: BTreeMap<usize, Property>,
}

impl Sheet {
    pub fn n(&self) -> usize {
        self.contexts.len()
    }

    /// What levels and owners leave of the twelve operations for (s, t).
    pub fn let_set(&self, s: usize, t: usize) -> Operations {
        let (subject, target) = (&self.contexts[s], &self.contexts[t]);
        let mut operations = ALL;
        if subject.owner != target.owner {
            operations &= !self.constrained;
        }
        if subject.level > target.level {
            operations &= !READ_LIKE;
        }
        if subject.level < target.level {
            operations &= !(WRITE_LIKE | EXECUTE);
        }
        operations
    }

    /// What the policy allows by itself.
    pub fn allowed(&self, s: usize, t: usize) -> Operations {
        self.written[s * self.n() + t] & self.let_set(s, t)
    }

    /// 0 where the policy allows the step by itself, and otherwise the lowest grant that gives it.
    pub fn origin(&self, s: usize, t: usize, operation: usize) -> usize {
        if self.allowed(s, t) & 1 << operation != NONE {
            return 0;
        }
        let gives = |(_, grant): &(&usize, &Grant)| grant.gives(s, t) & 1 << operation != NONE;
        self.grants.iter().find(gives).map_or(0, |(&number, _)| number)
    }
}
