//! Trees of several shapes. Each link takes as long.

use crate::tree::Tree;
use srm_bench::words::Pcg;

/// What each link takes, in microseconds: so long that a whole microsecond, to which waits and distances are rounded, is a thousandth.
pub const LINK: u32 = 1_000;

/// Nodes in a row.
pub fn chain(nodes: usize) -> Tree {
    tree(nodes, |node| node - 1)
}

/// Node 0 in the middle, and so many legs.
pub fn star(legs: usize) -> Tree {
    tree(legs + 1, |_| 0)
}

/// Node 0 has so many neighbours, and so has each other node, as far as there are nodes: they are added row by row.
pub fn bounded(nodes: usize, degree: usize) -> Tree {
    // Node 0 has one more below it than each other node.
    tree(nodes, |node| (node - 1).saturating_sub(1) / (degree - 1))
}

/// One of all trees with names 0 to `nodes - 1`, each as likely as another: by Prüfer's sequence.
pub fn labelled(nodes: usize, words: &mut Pcg) -> Tree {
    let sequence: Vec<usize> = (0..nodes - 2).map(|_| below(words, nodes)).collect();
    let mut links = vec![0; nodes];
    for &node in &sequence {
        links[node] += 1;
    }
    let mut pairs = Vec::new();
    let mut is_used = vec![false; nodes];
    for &node in &sequence {
        let leaf = (0..nodes).find(|&leaf| links[leaf] == 0 && !is_used[leaf]).expect("a tree has a leaf");
        is_used[leaf] = true;
        links[node] -= 1;
        pairs.push((leaf, node));
    }
    let mut rest = (0..nodes).filter(|&node| !is_used[node]);
    pairs.extend(rest.next().zip(rest.next()));
    from_pairs(nodes, &pairs)
}

/// The tree of these pairs, whose nodes are numbered anew, in the order in which they are reached from node 0.
fn from_pairs(nodes: usize, pairs: &[(usize, usize)]) -> Tree {
    let mut reached = vec![0];
    let mut links = Vec::new();
    let mut next = 0;
    while next < reached.len() {
        let node = reached[next];
        for &(one, other) in pairs {
            let beside = if one == node {
                other
            } else if other == node {
                one
            } else {
                continue;
            };
            if !reached.contains(&beside) {
                links.push((next, LINK));
                reached.push(beside);
            }
        }
        next += 1;
    }
    assert_eq!(reached.len(), nodes, "the pairs join all nodes");
    Tree::new(&links)
}

/// A number below another, each as likely as another but for less than 1 in 2^32.
pub fn below(words: &mut Pcg, bound: usize) -> usize {
    (words.word() % bound as u64) as usize
}

/// So many nodes of all, each list as likely as another.
pub fn draw_nodes(nodes: usize, count: usize, words: &mut Pcg) -> Vec<usize> {
    let mut all: Vec<usize> = (0..nodes).collect();
    for place in 0..count {
        let other = place + below(words, nodes - place);
        all.swap(place, other);
    }
    all.truncate(count);
    all
}

fn tree(nodes: usize, above: impl Fn(usize) -> usize) -> Tree {
    let links: Vec<(usize, u32)> = (1..nodes).map(|node| (above(node), LINK)).collect();
    Tree::new(&links)
}
