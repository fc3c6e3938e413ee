//! Joining: edges that meet in a corner of two edge ends become one edge, and
//! an edge with both ends there becomes a ring.

use super::edges::{EdgeTable, Item, ItemLoop, NewEdge};
use super::fans::Fans;
use super::job::Sense;
use super::questions::Asker;
use super::refusal::Refusal;
use std::collections::BTreeMap;

pub struct Joined {
    pub table: EdgeTable,
    pub joins: u32,
    pub rings: u32,
}

enum Change {
    Join { first: usize, second: usize },
    Ring { edge: usize },
}

/// Sweeps over the corners, afresh after each change, until none changes.
pub fn join_edges(table: EdgeTable, fans: &Fans, asker: &mut Asker) -> Result<Joined, Refusal> {
    let mut joined = Joined {
        table,
        joins: 0,
        rings: 0,
    };
    while let Some((corner, change)) = sweep(&joined.table, fans, asker)? {
        match change {
            Change::Ring { edge } => {
                joined.table.edges[edge].ends = None;
                joined.rings += 1;
            }
            Change::Join { first, second } => {
                join(&mut joined.table, corner, first, second);
                joined.joins += 1;
            }
        }
    }
    Ok(joined)
}

/// The first change of a sweep, with its corner.
fn sweep(
    table: &EdgeTable,
    fans: &Fans,
    asker: &mut Asker,
) -> Result<Option<(usize, Change)>, Refusal> {
    for (corner, ends) in corners(table) {
        let [first, second] = ends[..] else {
            continue;
        };
        let point = point_of(fans, corner);
        if let Some(change) = change_at(table, point, first, second, asker)? {
            return Ok(Some((corner, change)));
        }
    }
    Ok(None)
}

/// The active edge ends at each corner, by ascending edge.
fn corners(table: &EdgeTable) -> BTreeMap<usize, Vec<usize>> {
    let mut corners: BTreeMap<usize, Vec<usize>> = BTreeMap::new();
    for (e, edge) in table.edges.iter().enumerate() {
        if let (true, Some((start, end))) = (edge.active, edge.ends) {
            corners.entry(start).or_default().push(e);
            corners.entry(end).or_default().push(e);
        }
    }
    corners
}

fn point_of(fans: &Fans, corner: usize) -> u32 {
    let fan = fans.of_use[corner].expect("a fan is named by one of its uses");
    fan.point
}

/// What two edge ends at a corner come to.
fn change_at(
    table: &EdgeTable,
    point: u32,
    first: usize,
    second: usize,
    asker: &mut Asker,
) -> Result<Option<Change>, Refusal> {
    let (a, b) = (&table.edges[first], &table.edges[second]);
    let two = first != second;
    if two && (a.faces != b.faces || !asker.same_curves(a.curve, b.curve)?) {
        return Ok(None);
    }
    if asker.singular(a.curve, a.faces, point)? {
        return Ok(None);
    }
    Ok(Some(if two {
        Change::Join { first, second }
    } else {
        Change::Ring { edge: first }
    }))
}

fn join(table: &mut EdgeTable, corner: usize, first: usize, second: usize) {
    let new = table.edges.len();
    for l in &mut table.loops {
        while let Some(place) = loop_place(l, &table.edges, corner) {
            replace(l, place, first, new);
        }
    }
    let edge = joined_edge(&table.edges[first], &table.edges[second], corner);
    table.edges.push(edge);
    table.edges[first].active = false;
    table.edges[second].active = false;
}

/// The far end of an edge with one end at the corner.
fn far_end(edge: &NewEdge, corner: usize) -> usize {
    let (start, end) = edge.ends.expect("it has an end at the corner");
    if start == corner { end } else { start }
}

/// Runs along the first edge into the corner and on along the second.
fn joined_edge(first: &NewEdge, second: &NewEdge, corner: usize) -> NewEdge {
    let ended_there = first.ends.is_some_and(|(_, end)| end == corner);
    NewEdge {
        curve: first.curve,
        sense: if ended_there {
            first.sense
        } else {
            first.sense.reverse()
        },
        ends: Some((far_end(first, corner), far_end(second, corner))),
        faces: first.faces,
        active: true,
    }
}

/// Position of an item that ends at the corner. The item put in at a place is
/// of an edge that is not in the table yet; it does not count.
fn loop_place(l: &ItemLoop, edges: &[NewEdge], corner: usize) -> Option<usize> {
    l.items.iter().position(|item| {
        let edge = edges.get(item.edge);
        edge.is_some_and(|edge| edge.end_of_item(item.sense) == Some(corner))
    })
}

/// Turns the two items of a place to the front of their loop, makes them one.
fn replace(l: &mut ItemLoop, place: usize, first: usize, new: usize) {
    l.items.rotate_left(place);
    let first_led = l.items[0].edge == first;
    let item = Item {
        edge: new,
        sense: if first_led {
            Sense::Same
        } else {
            Sense::Reversed
        },
    };
    l.items.drain(..2);
    l.items.insert(0, item);
}
