//! Trees of nodes with links that take their time.

/// A tree. A link is named by its lower node, the one that is farther from node 0.
#[derive(Clone, Debug)]
pub struct Tree {
    /// Of each node but node 0, the node above it.
    above: Vec<usize>,
    /// Of each node the nodes beside it, each with the link between them.
    beside: Vec<Vec<(usize, usize)>>,
    /// Of each link, how many microseconds it takes. There is none above node 0.
    delays: Vec<u32>,
}

impl Tree {
    /// The tree that has, for each node from 1 on, a node before it that stands above it, and how long the link between them takes.
    pub fn new(links: &[(usize, u32)]) -> Tree {
        let nodes = links.len() + 1;
        let mut tree = Tree { above: vec![0; nodes], beside: vec![Vec::new(); nodes], delays: vec![0; nodes] };
        for (index, &(above, delay)) in links.iter().enumerate() {
            let node = index + 1;
            assert!(above < node, "a node stands behind the one above it");
            tree.above[node] = above;
            tree.delays[node] = delay;
            tree.beside[node].push((above, node));
            tree.beside[above].push((node, node));
        }
        tree
    }

    /// The tree in which each link takes so many times as long.
    pub fn slower(mut self, times: u32) -> Tree {
        for delay in &mut self.delays {
            *delay *= times;
        }
        self
    }

    pub fn nodes(&self) -> usize {
        self.above.len()
    }

    /// Microseconds from a node to each.
    pub fn ways_from(&self, start: usize) -> Vec<u32> {
        self.sums_from(start, |link| self.delays[link])
    }

    /// Links from a node to each.
    pub fn hops_from(&self, start: usize) -> Vec<u32> {
        self.sums_from(start, |_| 1)
    }

    fn sums_from(&self, start: usize, cost: impl Fn(usize) -> u32) -> Vec<u32> {
        let mut sums = vec![0; self.nodes()];
        self.walk(start, |from, node, link| sums[node] = sums[from] + cost(link));
        sums
    }

    /// The links from a node to another, in order.
    pub fn path(&self, start: usize, end: usize) -> Vec<usize> {
        let mut came_by = vec![(start, 0); self.nodes()];
        self.walk(start, |from, node, link| came_by[node] = (from, link));
        let mut links = Vec::new();
        let mut node = end;
        while node != start {
            let (from, link) = came_by[node];
            links.push(link);
            node = from;
        }
        links.reverse();
        links
    }

    /// Of each node whether a datagram of the source doesn't reach it that is lost on this link.
    pub fn cut_off(&self, source: usize, lost_on: usize) -> Vec<bool> {
        let mut cut_off = vec![false; self.nodes()];
        self.walk(source, |from, node, link| cut_off[node] = cut_off[from] || link == lost_on);
        cut_off
    }

    /// Calls for each other node, nearest first, with the node before it on the path from the start, and the link between them.
    fn walk(&self, start: usize, mut call: impl FnMut(usize, usize, usize)) {
        let mut reached = vec![(start, start)];
        let mut next = 0;
        while let Some(&(before, node)) = reached.get(next) {
            next += 1;
            for &(other, link) in self.beside[node].iter().filter(|(other, _)| *other != before) {
                call(node, other, link);
                reached.push((node, other));
            }
        }
    }
}
