//! Path sums, and who is cut off.

use crate::session::Session;
use crate::shapes::{LINK, bounded, chain, draw_nodes, labelled, star};
use crate::tree::Tree;
use srm_bench::words::Pcg;

/// Node 0 has nodes 1 and 2 below it, node 1 has 3 and 4, and node 3 has 5.
fn worked() -> Tree {
    Tree::new(&[(0, 10), (0, 200), (1, 3_000), (1, 40_000), (3, 500_000)])
}

#[test]
fn a_datagram_takes_the_sum_of_its_path() {
    assert_eq!(worked().ways_from(0), [0, 10, 200, 3_010, 40_010, 503_010]);
    assert_eq!(worked().ways_from(5), [503_010, 503_000, 503_210, 500_000, 543_000, 0]);
}

#[test]
fn a_path_has_its_links_in_order() {
    assert_eq!(worked().path(5, 2), [5, 3, 1, 2]);
    assert_eq!(worked().path(4, 4), [0; 0]);
    assert_eq!(worked().hops_from(5), [3, 2, 4, 1, 3, 0]);
}

#[test]
fn a_lost_datagram_cuts_off_all_behind_the_link() {
    let cut_off = |source, link| {
        let nodes = worked().cut_off(source, link);
        (0..6).filter(|&node| nodes[node]).collect::<Vec<_>>()
    };
    assert_eq!(cut_off(0, 1), [1, 3, 4, 5]);
    assert_eq!(cut_off(4, 1), [0, 2]);
    assert_eq!(cut_off(5, 4), [4]);
    assert_eq!(cut_off(2, 3), [3, 5]);
}

#[test]
fn a_session_is_cut_off_where_its_members_stand() {
    let tree = worked();
    let session = Session::new(&tree, vec![5, 0, 2, 4]);
    assert_eq!(session.path_to(2), [5, 3, 1, 2]);
    assert_eq!(session.cut_off(1), [false, true, true, false]);
    assert_eq!(session.cut_off(4), [false, false, false, true]);
}

#[test]
fn chains_and_stars_have_their_distances() {
    assert_eq!(chain(4).ways_from(1), [LINK, 0, LINK, 2 * LINK]);
    assert_eq!(star(3).ways_from(2), [LINK, 2 * LINK, 0, 2 * LINK]);
}

/// Of a thousand nodes of degree 4, row by row: 1, 4, 12, 36, 108, 324 and the 515 that are left.
#[test]
fn a_tree_of_bounded_degree_fills_its_rows() {
    let hops = bounded(1_000, 4).hops_from(0);
    let rows: Vec<usize> = (0..=6).map(|row| hops.iter().filter(|&&other| other == row).count()).collect();
    assert_eq!(rows, [1, 4, 12, 36, 108, 324, 515]);
    let beside = |node: usize| bounded(1_000, 4).hops_from(node).iter().filter(|&&hop| hop == 1).count();
    assert_eq!([beside(0), beside(1), beside(300), beside(999)], [4, 4, 4, 1]);
}

/// Cayley's formula counts 16 trees with four names. In 4 of them one node is next to all others.
#[test]
fn each_labelled_tree_is_as_likely() {
    let mut words = Pcg::new(1);
    let is_star = |tree: &Tree| (0..4).any(|node| tree.hops_from(node).iter().all(|&hops| hops < 2));
    let stars = (0..4_000).filter(|_| is_star(&labelled(4, &mut words))).count();
    assert!((900..=1_100).contains(&stars), "{stars} of 4,000 trees, and 1,000 are meant");
}

#[test]
fn drawn_nodes_are_apart() {
    let mut nodes = draw_nodes(10, 10, &mut Pcg::new(1));
    nodes.sort_unstable();
    assert_eq!(nodes, [0, 1, 2, 3, 4, 5, 6, 7, 8, 9]);
}
