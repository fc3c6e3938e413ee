//! Makes up answers as the questions are put.

use super::rng::Rng;
use super::sketch::{Sketch, Written};
use crate::second::questions::Answers;
use crate::second::{Job, Question, Reply, Sense};
use std::collections::BTreeMap;

#[derive(Clone, Copy, PartialEq)]
pub enum RadialStyle {
    /// Pairs as drawn.
    Drawn,
    /// Each Same use after some Reversed one, as far as there are any.
    Alternating,
    /// Any order.
    Any,
    /// Not each use once.
    Broken,
}

/// Out of a hundred, how often each answer is given.
#[derive(Clone)]
pub struct Style {
    pub radial: RadialStyle,
    /// A surface answer against what is drawn.
    pub surface_slip: usize,
    pub same_point: usize,
    pub same_curve: usize,
    pub singular: usize,
    pub outer: usize,
    pub inside: usize,
    /// The first shell asked is outer, every void lies in the first outer one.
    pub sound: bool,
}

impl Style {
    pub fn plain() -> Self {
        Self {
            radial: RadialStyle::Drawn,
            surface_slip: 0,
            same_point: 30,
            same_curve: 80,
            singular: 20,
            outer: 60,
            inside: 50,
            sound: true,
        }
    }
}

pub struct Oracle<'a> {
    pub sketch: &'a Sketch,
    pub written: &'a Written,
    pub job: &'a Job,
    pub style: Style,
    pub rng: &'a mut Rng,
    /// What was answered.
    pub given: BTreeMap<Question, Reply>,
    first_outer: Option<u32>,
}

impl<'a> Oracle<'a> {
    pub fn new(
        sketch: &'a Sketch,
        written: &'a Written,
        job: &'a Job,
        style: Style,
        rng: &'a mut Rng,
    ) -> Self {
        Self {
            sketch,
            written,
            job,
            style,
            rng,
            given: BTreeMap::new(),
            first_outer: None,
        }
    }

    fn yes(&mut self, percent: usize) -> Reply {
        Reply::Value(u32::from(self.rng.chance(percent)))
    }

    /// A value that merges the two faces, or one that does not.
    fn surface(&mut self, lower_use: usize) -> Reply {
        let half = self.written.half[lower_use];
        let face = self.written.face_of_use[lower_use];
        let beside = self.written.half.iter().position(|&h| h == half ^ 1);
        let other = beside.map_or(face, |h| self.written.face_of_use[h]);
        let equal = self.written.senses[face] == self.written.senses[other];
        let slip = self.rng.chance(self.style.surface_slip);
        let merge = self.sketch.pairs[half / 2].merge != slip;
        let (merging, other_value) = if equal { (1, 2) } else { (2, 1) };
        Reply::Value(match merge {
            true => merging,
            false if self.rng.chance(30) => other_value,
            false => 0,
        })
    }

    fn radial(&mut self, edge: usize) -> Reply {
        let mut same = Vec::new();
        let mut reversed = Vec::new();
        for (h, u) in crate::second::read::read(self.job).uses.iter().enumerate() {
            if u.edge == edge {
                match u.sense {
                    Sense::Same => same.push(h as u32),
                    Sense::Reversed => reversed.push(h as u32),
                }
            }
        }
        let mut order = match self.style.radial {
            RadialStyle::Any => self.any_order(same, reversed),
            RadialStyle::Alternating => self.alternating(same, reversed),
            RadialStyle::Drawn | RadialStyle::Broken => self.drawn(same, reversed),
        };
        let turn = self.rng.below(order.len());
        order.rotate_left(turn);
        if self.style.radial == RadialStyle::Broken {
            self.break_order(&mut order);
        }
        Reply::Order(order)
    }

    fn any_order(&mut self, mut same: Vec<u32>, reversed: Vec<u32>) -> Vec<u32> {
        same.extend(reversed);
        self.rng.shuffle(&mut same);
        same
    }

    /// Each Same use right after the use drawn on the other side of its pair.
    fn drawn(&mut self, mut same: Vec<u32>, reversed: Vec<u32>) -> Vec<u32> {
        let half = |h: u32| self.written.half[h as usize];
        let partner = |h: u32| reversed.iter().copied().find(|&r| half(r) == half(h) ^ 1);
        let partners: Option<Vec<u32>> = same.iter().map(|&h| partner(h)).collect();
        let Some(partners) = partners.filter(|_| same.len() == reversed.len()) else {
            return self.alternating(same, reversed);
        };
        let mut pairs: Vec<[u32; 2]> = partners
            .into_iter()
            .zip(same.drain(..))
            .map(Into::into)
            .collect();
        self.rng.shuffle(&mut pairs);
        pairs.concat()
    }

    fn alternating(&mut self, mut same: Vec<u32>, mut reversed: Vec<u32>) -> Vec<u32> {
        self.rng.shuffle(&mut same);
        self.rng.shuffle(&mut reversed);
        let mut parts: Vec<Vec<u32>> = Vec::new();
        for i in 0..same.len().max(reversed.len()) {
            parts.push(
                reversed
                    .get(i)
                    .into_iter()
                    .chain(same.get(i))
                    .copied()
                    .collect(),
            );
        }
        self.rng.shuffle(&mut parts);
        parts.concat()
    }

    fn break_order(&mut self, order: &mut Vec<u32>) {
        let at = self.rng.below(order.len());
        let any = self.rng.below(self.written.half.len()) as u32;
        match self.rng.below(4) {
            0 => {
                order.remove(at);
            }
            1 => order.push(any),
            2 => order[at] = order[(at + 1) % order.len()],
            _ => order[at] = any,
        }
    }

    fn orientation(&mut self, face: u32) -> Reply {
        let outer =
            self.rng.chance(self.style.outer) || self.style.sound && self.first_outer.is_none();
        if outer && self.first_outer.is_none() {
            self.first_outer = Some(face);
        }
        Reply::Value(u32::from(outer))
    }

    fn inside(&mut self, container: u32) -> Reply {
        if self.style.sound && self.first_outer == Some(container) {
            return Reply::Value(1);
        }
        self.yes(self.style.inside)
    }
}

impl Answers for Oracle<'_> {
    fn answer(&mut self, question: &Question) -> Option<Reply> {
        if let Some(before) = self.given.get(question) {
            return Some(before.clone());
        }
        let reply = match *question {
            Question::Radial { edge } => self.radial(edge as usize),
            Question::Surface { lower_use } => self.surface(lower_use as usize),
            Question::Points { .. } => self.yes(self.style.same_point),
            Question::Curves { .. } => self.yes(self.style.same_curve),
            Question::Singular { .. } => self.yes(self.style.singular),
            Question::Orientation { face } => self.orientation(face),
            Question::Inside { container, .. } => self.inside(container),
        };
        self.given.insert(question.clone(), reply.clone());
        Some(reply)
    }
}
