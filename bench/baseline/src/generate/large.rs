//! The largest texts, one for each template: each property has a long search, or one that must look everywhere.

use super::short_names;

pub const TEMPLATES: [&str; 4] = ["integrity", "confidentiality", "domain", "consistency"];

/// As many pairs are set for each context: 1,024 for 256 contexts.
const PAIRS_EACH: usize = 4;
const GRANTS: usize = 32;
const OWNERS: usize = 16;

/// A text of n contexts (at least 16), 4n pairs, 32 grants and up to 64 properties of a template.
///
/// The last context, the vault, takes part in no move, and nothing gets from an owner to another but by `send`, `receive` and
/// `become`. So the grants, which give the other operations between owners, must all be looked at and give no move. In a crowded
/// text the last four give these three among all contexts but the vault.
pub fn text(template: &str, n: usize, properties: usize, crowded: bool) -> String {
    let names = short_names(n);
    let large = Large { names: &names, n };
    let mut text: String = (0..n).map(|c| format!("context {} 0 {}\n", names[c], c % OWNERS)).collect();
    text += "constrain read write append update execute stat lock unlock signal\n";
    let mut pairs = large.moves(template);
    let crowd = large.crowd(&pairs);
    pairs.extend(crowd);
    text.extend(pairs.iter().map(|&(s, t, operation)| format!("vector {} {} {operation}\n", names[s], names[t])));
    let free = if crowded { large.free_grants() } else { Vec::new() };
    text.extend((1..=GRANTS - free.len()).map(|number| large.grant(number)));
    text.extend(free);
    text.extend((1..=properties).map(|number| large.property(template, number)));
    text
}

type Pair = (usize, usize, &'static str);

struct Large<'a> {
    names: &'a [String],
    n: usize,
}

impl Large<'_> {
    /// The pairs that make moves.
    fn moves(&self, template: &str) -> Vec<Pair> {
        let vault = self.n - 1;
        let half = self.n / 2;
        match template {
            // Half of the contexts become one another along a chain, and from its end information goes along the other half.
            "integrity" | "confidentiality" => {
                let along = if template == "integrity" { "send" } else { "receive" };
                let turned = (0..half).map(|c| (c, c + 1, "become"));
                let carried = (half..vault - 1).map(|c| (c, c + 1, along));
                let back = (1..half).map(|c| (c, c - 1, along));
                turned.chain(carried).chain(back).collect()
            }
            // Each context gives to the one before it, round and round.
            "consistency" => (0..vault).map(|c| ((c + 1) % vault, c, "send")).collect(),
            // One operation within an owner, between the last two contexts of it.
            _ => vec![(vault, vault - OWNERS, "lock")],
        }
    }

    /// Pairs between owners that make no move, until 4n pairs are set.
    fn crowd(&self, moves: &[Pair]) -> Vec<Pair> {
        let n = self.n;
        let far = (2..n).filter(|distance| distance % OWNERS != 0);
        let pairs = far.flat_map(|distance| (0..n).map(move |s| (s, (s + distance) % n)));
        let free = pairs.filter(|&(s, t)| !moves.iter().any(|&(a, b, _)| (a, b) == (s, t)));
        free.take(PAIRS_EACH * n - moves.len()).map(|(s, t)| (s, t, "write")).collect()
    }

    /// A grant of constrained operations from contexts of some owners to contexts of the others.
    fn grant(&self, number: usize) -> String {
        let chosen = |&c: &usize| (c / OWNERS * 3 + number) % 5 < 3;
        let low = self.set((0..self.n).filter(chosen).filter(|c| c % OWNERS < OWNERS / 2));
        let high = self.set((0..self.n).filter(chosen).filter(|c| c % OWNERS >= OWNERS / 2));
        let (subjects, targets) = if number.is_multiple_of(2) { (low, high) } else { (high, low) };
        format!("grant {number} {subjects} {targets} read write append\n")
    }

    /// The last grants of a crowded text: of four, since a line has at most 1,024 bytes.
    fn free_grants(&self) -> Vec<String> {
        let half = self.n / 2;
        let halves = [self.set(0..half), self.set(half..self.n - 1)];
        let pairs = halves.iter().flat_map(|from| halves.iter().map(move |to| (from, to)));
        let numbers = GRANTS - halves.len() * halves.len() + 1..;
        numbers.zip(pairs).map(|(number, (from, to))| format!("grant {number} {from} {to} send receive become\n")).collect()
    }

    /// One in two is guaranteed, since nothing gets to the vault or from it; the others are broken, mostly by a long chain.
    fn property(&self, template: &str, number: usize) -> String {
        let vault = self.n - 1;
        let guaranteed = number % 2 == 1;
        let aim = if guaranteed { vault } else { vault - 1 };
        let sets = match template {
            "domain" if guaranteed => self.set((0..self.n).filter(|c| c % OWNERS < OWNERS / 2)),
            "domain" if number.is_multiple_of(8) => self.set(0..vault),
            "domain" => self.set([vault].into_iter()),
            "consistency" => format!("{} {}", self.set(0..self.n / 2), self.names[aim]),
            // One source in most, which makes the longest chains; everything but the aim in some.
            _ if number % 8 < 6 => format!("{} {}", self.names[0], self.names[aim]),
            _ => format!("{} {}", self.set((0..self.n).filter(|&c| c != aim)), self.names[aim]),
        };
        format!("property {number} {template} {sets}\n")
    }

    fn set(&self, contexts: impl Iterator<Item = usize>) -> String {
        let names: Vec<&str> = contexts.map(|c| self.names[c].as_str()).collect();
        names.join(",")
    }
}
