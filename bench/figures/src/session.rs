//! Members in a tree, and what it costs them when a drawop is lost on a link.

use crate::cost::Cost;
use crate::tree::Tree;
use srm_bench::losses::{Group, Plan, Waits, lose};
use srm_bench::words::Pcg;

/// The members of a session. The first is the source.
pub struct Session<'a> {
    tree: &'a Tree,
    nodes: Vec<usize>,
    /// Microseconds from each member to each, by sender and then receiver.
    ways: Vec<u32>,
}

impl<'a> Session<'a> {
    /// A session whose members stand at these nodes.
    pub fn new(tree: &'a Tree, nodes: Vec<usize>) -> Session<'a> {
        let ways = nodes.iter().flat_map(|&from| {
            let ways = tree.ways_from(from);
            nodes.iter().map(move |&to| ways[to]).collect::<Vec<_>>()
        });
        Session { tree, ways: ways.collect(), nodes }
    }

    pub fn members(&self) -> usize {
        self.nodes.len()
    }

    /// Microseconds from each member to each, by sender and then receiver.
    pub fn ways(&self) -> &[u32] {
        &self.ways
    }

    /// Microseconds from a member to another.
    pub fn way(&self, from: usize, to: usize) -> u64 {
        u64::from(self.ways[from * self.members() + to])
    }

    /// Microseconds between the two members that are farthest from each other.
    pub fn farthest(&self) -> u64 {
        u64::from(self.ways.iter().copied().max().unwrap_or(0))
    }

    /// The links from the source to a member.
    pub fn path_to(&self, member: usize) -> Vec<usize> {
        self.tree.path(self.nodes[0], self.nodes[member])
    }

    /// Of each member whether it misses what is lost on a link.
    pub fn cut_off(&self, link: usize) -> Vec<bool> {
        let cut_off = self.tree.cut_off(self.nodes[0], link);
        self.nodes.iter().map(|&node| cut_off[node]).collect()
    }

    /// What it costs when so many drawops are lost on a link, one after the other. What each member's random numbers start from is drawn.
    pub fn lose(&self, link: usize, waits: Waits, losses: u32, words: &mut Pcg) -> Vec<Cost> {
        let seeds: Vec<u64> = self.nodes.iter().map(|_| words.word()).collect();
        self.lose_by(&seeds, link, waits, losses)
    }

    /// The same where the members' random numbers start from these.
    pub fn lose_by(&self, seeds: &[u64], link: usize, waits: Waits, losses: u32) -> Vec<Cost> {
        let group = Group { seeds, ways: &self.ways, cut_off: &self.cut_off(link) };
        let lost = lose(&group, waits, self.plan(waits, losses));
        lost.iter().map(|lost| Cost::of(lost, &group)).collect()
    }

    /// The next drawop is drawn as soon as each member has heard what each sent at the second second, which tells the last distance. The one
    /// after the next is drawn once all are done that asked late and repaired twice.
    fn plan(&self, waits: Waits, losses: u32) -> Plan {
        let longest = self.ways.iter().copied().max().unwrap_or(0);
        let waited = u32::from(waits.c1 + waits.c2) + 2 * u32::from(waits.d1 + waits.d2);
        Plan { start: 2_000_000 + longest + 1, shown: 100, settled: (waited + 6) * longest, losses }
    }
}
