//! Runs the published functions on a job and notes what each stage gives, in
//! the layout of docs/STAGES.md.

use crate::decode::{Decoded, decode};
use crate::listing::{Base, Totals, body_bytes, field, point_number};
use crate::numbers::{Decider, Refusal, SurfaceQuestion};
use crate::places;
use crate::sewing::open::{self, FaceLoops, PlainEdge, PlainMerged, PlainUse};
use crate::topology::{FaceId, Loop};
use crate::{Model, PointId, Sense, SurfaceId, VertexId};
use std::collections::{BTreeMap, BTreeSet};

pub type Records = Vec<Vec<u32>>;
/// Refusal number and place.
pub type Ending = (u32, u32);
pub type Observed = Result<Records, Ending>;

/// The stages in order: read, pair, merge, vertex-loops, walk, loops, fans,
/// edges, joining, shells, lumps.
pub const STAGES: usize = 11;

pub struct Verdict {
    pub stages: Vec<Observed>,
    pub body: Result<Vec<u8>, Ending>,
    /// Kind and numbers of each question, in the order put.
    pub asked: Vec<Vec<u32>>,
    /// Whatever the published code should never do, in words.
    pub oddities: Vec<String>,
}

/// Runs the reference on a job that loads.
pub fn observe(job: &[u8]) -> Verdict {
    let mut watch = Watch::new(decode(job));
    let ending = watch.stages();
    let mut stages: Vec<Observed> = watch.found.drain(..).map(Ok).collect();
    if let Err(refusal) = ending {
        stages.resize(STAGES, Err(refusal));
    }
    let body = watch.whole(ending);
    Verdict {
        stages,
        body,
        asked: watch.dec.asked,
        oddities: watch.oddities,
    }
}

/// A decider that knows the questions to come, for timing `rebuild`.
pub(crate) fn prepared(job: &[u8]) -> Decider {
    let mut watch = Watch::new(decode(job));
    let _ = watch.stages();
    watch.ready
}

/// The tables of the stages up to the walks.
struct Tables {
    uses: Vec<PlainUse>,
    by_edge: BTreeMap<usize, Vec<usize>>,
    twins: Vec<usize>,
    merged: PlainMerged,
    /// Merged face of each selected face.
    merged_face: Vec<usize>,
}

impl Tables {
    fn kept(&self) -> impl Iterator<Item = usize> + '_ {
        (0..self.uses.len()).filter(|&h| !self.merged.removed[h])
    }

    fn face_of(&self, h: usize) -> u32 {
        self.merged_face[self.uses[h].face] as u32
    }

    /// Merged face and uses of each loop, by ascending start.
    fn loops(&self) -> Vec<(usize, usize, &Vec<usize>)> {
        let mut all = Vec::new();
        for (f, face) in self.merged.faces.iter().enumerate() {
            all.extend(face.loops.iter().enumerate().map(|(l, uses)| (f, l, uses)));
        }
        all.sort_by_key(|(_, _, uses)| uses[0]);
        all
    }

    /// How often the way from the old successor to the new one passes over.
    fn passed(&self, h: usize) -> u32 {
        let mut cursor = self.uses[h].next;
        let mut count = 0;
        while cursor != self.merged.next[h] {
            cursor = self.uses[self.twins[cursor]].next;
            count += 1;
        }
        count
    }
}

/// An unjoined body, as `rebuild` writes it when nothing joins.
struct Unjoined {
    edges: Vec<PlainEdge>,
    loops: FaceLoops,
    points: BTreeMap<usize, PointId>,
    model: Model,
    shells: Vec<Vec<u32>>,
}

struct Watch {
    decoded: Decoded,
    base: Base,
    /// Takes the questions of the stages, one call after the other.
    dec: Decider,
    /// Knows the questions to come, for `rebuild` as a whole.
    ready: Decider,
    found: Vec<Records>,
    totals: Totals,
    oddities: Vec<String>,
}

impl Watch {
    fn new(decoded: Decoded) -> Self {
        Self {
            base: Base::of(&decoded.model),
            dec: decoded.decider.clone(),
            ready: decoded.decider.clone(),
            decoded,
            found: Vec::new(),
            totals: [0; 5],
            oddities: Vec::new(),
        }
    }

    fn model(&self) -> Model {
        self.decoded.model.clone()
    }

    /// Number and place of a refusal whose place the stand-in or its number
    /// tells; anything else is odd.
    fn ending(&mut self, refusal: &Refusal) -> Ending {
        match (refusal.stand_in, places::number(refusal)) {
            (Some(ending), _) => ending,
            (None, Some(22)) => (22, 8),
            _ => self.odd(refusal),
        }
    }

    fn odd(&mut self, refusal: &Refusal) -> Ending {
        self.oddities
            .push(format!("{}: {}", refusal.code, refusal.detail));
        (0, 0)
    }

    fn stages(&mut self) -> Result<(), Ending> {
        let tables = self.tables()?;
        self.note_totals(&tables);
        self.contact_of_boundaries(&tables)?;
        let fans = self.fans(&tables);
        self.contact_of_fans(&tables, &fans, 31, |boundary| boundary)?;
        let unjoined = self.unjoined(&tables, &fans)?;
        self.edges(&tables, &unjoined);
        self.joining(&tables, &unjoined)?;
        let lump = self.shells_and_lumps(unjoined)?;
        let lowest = &tables.merged.boundary;
        let lump_of = |boundary: usize| {
            let face = tables.merged_face[lowest[boundary]] as u32;
            lump[&face]
        };
        self.contact_of_fans(&tables, &fans, 32, lump_of)?;
        contact_of_edges(&tables, 33, lump_of)
    }

    /// Reading, pairing, merging, vertex loops, walks and loops.
    fn tables(&mut self) -> Result<Tables, Ending> {
        let mut model = self.model();
        let selection = self.decoded.selection.clone();
        let uses = open::uses(&model, &selection);
        self.found.push(read_records(&uses));
        let paired = open::twins(&mut model, &selection, &mut self.dec);
        let twins = match paired {
            Ok(twins) => twins,
            Err(refusal) => {
                let place = places::pairing(&refusal, &mut model, &selection, &self.ready);
                return Err(place.unwrap_or_else(|| self.odd(&refusal)));
            }
        };
        self.found
            .push(twins.iter().map(|&t| vec![t as u32]).collect());
        self.expect_surfaces(&uses, &twins);
        let merged = self.merge(&mut model, &twins)?;
        let merged_face = members_to_faces(&merged);
        let tables = Tables {
            by_edge: open::uses_by_edge(&model, &selection),
            uses,
            twins,
            merged,
            merged_face,
        };
        self.note_walks(&tables);
        Ok(tables)
    }

    /// Surface questions go by ascending lower use of a pair.
    fn expect_surfaces(&mut self, uses: &[PlainUse], twins: &[usize]) {
        for (h, &twin) in twins.iter().enumerate() {
            let (a, b) = (uses[h].face, uses[twin].face);
            if h < twin && a != b {
                let question = SurfaceQuestion {
                    lower_use: h as u32,
                    supports: [SurfaceId(a as u32), SurfaceId(b as u32)],
                };
                self.dec.surfaces.push_back(question.clone());
                self.ready.surfaces.push_back(question);
            }
        }
    }

    /// Merging shows its groups only if the vertex loops are answered too, so
    /// it is first run with their points taken as different.
    fn merge(&mut self, model: &mut Model, twins: &[usize]) -> Result<PlainMerged, Ending> {
        let selection = self.decoded.selection.clone();
        let mut probe = self.dec.clone();
        probe.probing = true;
        if let Ok(merged) = open::merge(model, &selection, twins, &mut probe) {
            let faces = members_to_faces(&merged);
            let lowest = |i: usize| merged.faces[faces[i]].members[0] as u32;
            let record = |i: usize| vec![merged.boundary[i] as u32, lowest(i)];
            self.found.push((0..faces.len()).map(record).collect());
        }
        let merged = match open::merge(model, &selection, twins, &mut self.dec) {
            Ok(merged) => merged,
            Err(refusal) => return Err(self.ending(&refusal)),
        };
        let lowest = merged.faces.iter().map(|face| face.members[0] as u32);
        self.ready.lowest = lowest.collect();
        self.dec.lowest = self.ready.lowest.clone();
        Ok(merged)
    }

    fn note_walks(&mut self, tables: &Tables) {
        self.found.push(vertex_loop_records(&self.decoded, tables));
        let walk = tables.kept().map(|h| {
            let next = tables.merged.next[h];
            vec![h as u32, next as u32, tables.passed(h)]
        });
        self.found.push(walk.collect());
        let loops = tables.loops().into_iter().map(|(face, _, uses)| {
            let mut record = vec![face as u32, uses.len() as u32];
            record.extend(uses.iter().map(|&h| h as u32));
            record
        });
        self.found.push(loops.collect());
    }

    fn note_totals(&mut self, tables: &Tables) {
        let uses = tables.uses.len() as u32;
        let kept = tables.kept().count() as u32;
        let passed = tables.kept().map(|h| tables.passed(h)).sum();
        self.totals = [uses, uses - kept, passed, 0, 0];
    }

    fn contact_of_boundaries(&mut self, tables: &Tables) -> Result<(), Ending> {
        contact_of_edges(tables, 30, |boundary| boundary)
    }

    fn has_ends(&self, tables: &Tables, h: usize) -> bool {
        self.decoded.model.edges[tables.uses[h].edge]
            .start
            .is_some()
    }

    /// The point where a use starts.
    fn point_of(&self, tables: &Tables, h: usize) -> u32 {
        let edge = &self.decoded.model.edges[tables.uses[h].edge];
        let vertex = match tables.uses[h].sense {
            Sense::Same => edge.start,
            Sense::Reversed => edge.end,
        };
        let VertexId(vertex) = vertex.expect("only asked of uses with ends");
        point_number(self.decoded.model.vertices[vertex].point)
    }

    fn fans(&mut self, tables: &Tables) -> Vec<usize> {
        let with_ends: Vec<usize> = tables
            .kept()
            .filter(|&h| self.has_ends(tables, h))
            .collect();
        let joined = with_ends
            .iter()
            .map(|&h| (tables.merged.next[h], tables.twins[h]));
        let fans = open::fans(tables.uses.len(), joined);
        let record = |&h: &usize| vec![h as u32, fans[h] as u32, self.point_of(tables, h)];
        let records = with_ends.iter().map(record).collect();
        self.found.push(records);
        fans
    }

    /// Refuses where two fans of one label meet at a point.
    fn contact_of_fans<L: Ord>(
        &self,
        tables: &Tables,
        fans: &[usize],
        number: u32,
        label: impl Fn(usize) -> L,
    ) -> Result<(), Ending> {
        let mut by_point: BTreeMap<u32, BTreeSet<usize>> = BTreeMap::new();
        for h in tables.kept().filter(|&h| self.has_ends(tables, h)) {
            let point = self.point_of(tables, h);
            by_point.entry(point).or_default().insert(fans[h]);
        }
        let labels = |fans: BTreeSet<usize>| {
            let of = |fan: usize| label(tables.merged.boundary[tables.uses[fan].face]);
            fans.into_iter().map(of).collect()
        };
        let by_point = by_point.into_iter().map(|(p, fans)| (p, labels(fans)));
        match places::first_repeat(by_point.collect()) {
            Some(point) => Err((number, point)),
            None => Ok(()),
        }
    }

    /// Rebuilds without joining and reads edges, loops and shells off the body.
    fn unjoined(&mut self, tables: &Tables, fans: &[usize]) -> Result<Unjoined, Ending> {
        let mut model = self.model();
        let mut probe = self.ready.clone();
        probe.probing = true;
        let done = open::whole(&mut model, &self.decoded.selection, false, &mut probe);
        if let Err(refusal) = done {
            return Err(self.odd(&refusal));
        }
        let loops = self.stored_loops(&model, tables);
        let names = fan_names(&model, &loops);
        self.check_fans(&model, tables, &loops, &names, fans);
        let edges = self.stored_edges(&model, &loops, &names);
        let points = names
            .iter()
            .map(|(&VertexId(v), &fan)| (fan, model.vertices[v].point))
            .collect();
        let strip = |item: &StoredItem| (item.edge - self.base.edges, item.sense);
        let loops = loops
            .iter()
            .map(|face| face.iter().map(|l| l.iter().map(strip).collect()).collect())
            .collect();
        Ok(Unjoined {
            edges,
            loops,
            points,
            model,
            shells: probe.shells,
        })
    }

    fn stored_loops(&self, model: &Model, tables: &Tables) -> Vec<Vec<Vec<StoredItem>>> {
        let faces = &model.faces[self.base.faces..];
        let of_face = |(f, merged): (usize, &open::PlainFace)| {
            let loops = faces[f].loops.iter().zip(&merged.loops);
            loops
                .map(|(&id, uses)| {
                    let Loop::Coedges(coedges) = model.loop_(id) else {
                        panic!("vertex loops stand last");
                    };
                    let items = coedges.iter().zip(uses);
                    items
                        .map(|(&c, &h)| StoredItem {
                            edge: model.coedge(c).edge.0,
                            sense: model.coedge(c).sense,
                            first_use: h,
                        })
                        .collect()
                })
                .collect()
        };
        let merged = tables.merged.faces.iter();
        merged.enumerate().map(of_face).collect()
    }

    fn stored_edges(
        &self,
        model: &Model,
        loops: &[Vec<Vec<StoredItem>>],
        names: &BTreeMap<VertexId, usize>,
    ) -> Vec<PlainEdge> {
        let mut beside: Vec<Vec<usize>> = vec![Vec::new(); model.edges.len()];
        for (f, face) in loops.iter().enumerate() {
            for item in face.iter().flatten() {
                beside[item.edge].push(f);
            }
        }
        (self.base.edges..model.edges.len())
            .map(|e| {
                let edge = &model.edges[e];
                beside[e].sort_unstable();
                PlainEdge {
                    curve: edge.curve,
                    sense: edge.sense,
                    from: edge.start.map(|v| names[&v]),
                    to: edge.end.map(|v| names[&v]),
                    faces: [beside[e][0], beside[e][1]],
                    active: true,
                }
            })
            .collect()
    }

    /// The vertices of the unjoined body must be the fans.
    fn check_fans(
        &mut self,
        model: &Model,
        tables: &Tables,
        loops: &[Vec<Vec<StoredItem>>],
        names: &BTreeMap<VertexId, usize>,
        fans: &[usize],
    ) {
        for item in loops.iter().flatten().flatten() {
            let h = item.first_use;
            let named = item.start(model).map(|v| names[&v]);
            let fan = self.has_ends(tables, h).then_some(fans[h]);
            if named != fan {
                self.oddities
                    .push(format!("use {h}: fan {fan:?}, vertex of fan {named:?}"));
            }
        }
    }

    fn edges(&mut self, tables: &Tables, unjoined: &Unjoined) {
        let records = edge_records(tables, [0, 0], &unjoined.edges, &unjoined.loops);
        self.found.push(records);
    }

    fn joining(&mut self, tables: &Tables, unjoined: &Unjoined) -> Result<(), Ending> {
        let mut model = self.model();
        let supports = tables.merged.faces.iter();
        let supports: Vec<SurfaceId> = supports
            .map(|face| SurfaceId(face.members[0] as u32))
            .collect();
        let joined = open::join(
            &mut model,
            &supports,
            &unjoined.edges,
            &unjoined.loops,
            &unjoined.points,
            &mut self.dec,
        );
        let (edges, loops) = match joined {
            Ok(joined) => joined,
            Err(refusal) => return Err(self.ending(&refusal)),
        };
        let joins = (edges.len() - unjoined.edges.len()) as u32;
        let was_ring = |i: usize| unjoined.edges.get(i).is_some_and(|e| e.from.is_none());
        let made_ring = |&(i, e): &(usize, &PlainEdge)| e.from.is_none() && !was_ring(i);
        let rings = edges.iter().enumerate().filter(made_ring).count() as u32;
        self.totals[3..].copy_from_slice(&[joins, rings]);
        let records = edge_records(tables, [joins, rings], &edges, &loops);
        self.found.push(records);
        Ok(())
    }

    /// Orients and nests the shells; gives the lump of each shell's lowest face.
    fn shells_and_lumps(&mut self, unjoined: Unjoined) -> Result<BTreeMap<u32, usize>, Ending> {
        let mut model = unjoined.model;
        let base = self.base.faces;
        let id = |&face: &u32| FaceId(base + face as usize);
        let shells: Vec<(usize, Vec<FaceId>)> = unjoined
            .shells
            .iter()
            .map(|faces| faces.iter().map(id).collect())
            .enumerate()
            .collect();
        let outer = self.outer_shells(&mut model, &shells)?;
        let lead = |i: usize| u32::from(outer.contains(&i));
        let records = unjoined.shells.iter().enumerate();
        let records = records.map(|(i, faces)| counted(lead(i), faces)).collect();
        self.found.push(records);

        let lumps = self.nested(&mut model, &shells, &outer)?;
        let mut records = Vec::new();
        let mut lump_of = BTreeMap::new();
        for (lump, members) in lumps.values().enumerate() {
            for &shell in members {
                let faces = &unjoined.shells[shell];
                records.push(counted(lump as u32, faces));
                lump_of.insert(faces[0], lump);
            }
        }
        self.found.push(records);
        Ok(lump_of)
    }

    fn outer_shells(
        &mut self,
        model: &mut Model,
        shells: &[(usize, Vec<FaceId>)],
    ) -> Result<Vec<usize>, Ending> {
        let mut outer = Vec::new();
        for (i, faces) in shells {
            let is_outer = self.decoded.proven
                || open::orient(model, faces, &mut self.dec)
                    .map_err(|refusal| self.ending(&refusal))?;
            if is_outer {
                outer.push(*i);
            }
        }
        Ok(outer)
    }

    /// Shells of each lump, by its outer shell.
    fn nested(
        &mut self,
        model: &mut Model,
        shells: &[(usize, Vec<FaceId>)],
        outer: &[usize],
    ) -> Result<BTreeMap<usize, Vec<usize>>, Ending> {
        let mut lumps: BTreeMap<usize, Vec<usize>> = outer.iter().map(|&i| (i, vec![i])).collect();
        for (void, faces) in shells.iter().filter(|(i, _)| !outer.contains(i)) {
            let around = open::enclosing(model, shells, outer, *void, &mut self.dec)
                .map_err(|refusal| self.ending(&refusal))?;
            let lowest = (faces[0].0 - self.base.faces) as u32;
            let members = around.and_then(|shell| lumps.get_mut(&shell));
            members.ok_or((34, lowest))?.push(*void);
        }
        Ok(lumps)
    }

    /// Runs `rebuild` as a whole. What it gives must agree with the stages.
    fn whole(&mut self, ending: Result<(), Ending>) -> Result<Vec<u8>, Ending> {
        let mut model = self.model();
        let mut dec = self.ready.clone();
        let selection = &self.decoded.selection;
        let done = open::whole(&mut model, selection, self.decoded.proven, &mut dec);
        if dec.asked != self.dec.asked {
            self.oddities
                .push("questions of rebuild and of its parts differ".to_string());
        }
        match done {
            Ok(body) => {
                if let Err((number, place)) = ending {
                    self.oddities.push(format!(
                        "rebuild accepts, its parts refuse {number} {place}"
                    ));
                }
                let (base, decoded) = (&self.base, &self.decoded);
                Ok(body_bytes(&model, body, base, decoded, self.totals))
            }
            Err(refusal) => {
                let number = places::number(&refusal);
                let by_stand_in = refusal.stand_in;
                let (n, place) = ending.err().unwrap_or((0, 0));
                if number != Some(n) || by_stand_in.is_some_and(|e| e != (n, place)) {
                    self.oddities.push(format!(
                        "rebuild refuses {number:?} ({}), its parts {n} {place}",
                        refusal.detail
                    ));
                }
                Err((number.unwrap_or(0), place))
            }
        }
    }
}

/// A leading field, the number of members, the members.
fn counted(lead: u32, members: &[u32]) -> Vec<u32> {
    let mut record = vec![lead, members.len() as u32];
    record.extend(members);
    record
}

/// A loop item of a stored body and the use it came from.
struct StoredItem {
    edge: usize,
    sense: Sense,
    first_use: usize,
}

impl StoredItem {
    fn start(&self, model: &Model) -> Option<VertexId> {
        let edge = &model.edges[self.edge];
        match self.sense {
            Sense::Same => edge.start,
            Sense::Reversed => edge.end,
        }
    }
}

/// Each stored vertex, named by the lowest use that starts there.
fn fan_names(model: &Model, loops: &[Vec<Vec<StoredItem>>]) -> BTreeMap<VertexId, usize> {
    let mut names = BTreeMap::new();
    for item in loops.iter().flatten().flatten() {
        if let Some(vertex) = item.start(model) {
            let name = names.entry(vertex).or_insert(item.first_use);
            *name = (*name).min(item.first_use);
        }
    }
    names
}

fn members_to_faces(merged: &PlainMerged) -> Vec<usize> {
    let mut of = vec![usize::MAX; merged.boundary.len()];
    for (f, face) in merged.faces.iter().enumerate() {
        for &member in &face.members {
            of[member] = f;
        }
    }
    of
}

fn read_records(uses: &[PlainUse]) -> Records {
    let record = |u: &PlainUse| vec![u.edge as u32, u.face as u32, field(u.sense), u.next as u32];
    uses.iter().map(record).collect()
}

/// The kept vertex loops of each merged face, put back into the order of the
/// job: a vertex loop was kept if it is the next one its merged face shows.
fn vertex_loop_records(decoded: &Decoded, tables: &Tables) -> Records {
    let mut shown = vec![0; tables.merged.faces.len()];
    let mut records = Vec::new();
    for (face, &merged) in tables.merged_face.iter().enumerate() {
        for &id in &decoded.model.faces[face].loops {
            let Loop::Vertex(vertex) = *decoded.model.loop_(id) else {
                continue;
            };
            if tables.merged.faces[merged].vertices.get(shown[merged]) == Some(&vertex) {
                shown[merged] += 1;
                let point = point_number(decoded.model.vertices[vertex.0].point);
                records.push(vec![merged as u32, point]);
            }
        }
    }
    records
}

/// Refuses where two pairs of an edge of more than two uses have one label.
fn contact_of_edges<L: Ord>(
    tables: &Tables,
    number: u32,
    label: impl Fn(usize) -> L,
) -> Result<(), Ending> {
    let lower = |list: &Vec<usize>| {
        let pairs = list.iter().filter(|&&h| h < tables.twins[h]);
        pairs
            .map(|&h| label(tables.merged.boundary[tables.uses[h].face]))
            .collect()
    };
    let crowded = tables.by_edge.iter().filter(|(_, list)| list.len() > 2);
    let by_edge = crowded.map(|(&edge, list)| (edge as u32, lower(list)));
    match places::first_repeat(by_edge.collect()) {
        Some(edge) => Err((number, edge)),
        None => Ok(()),
    }
}

fn edge_records(
    tables: &Tables,
    [joins, rings]: [u32; 2],
    edges: &[PlainEdge],
    loops: &FaceLoops,
) -> Records {
    let mut records = vec![vec![joins, rings, edges.len() as u32]];
    let fan = |end: Option<usize>| end.map_or(u32::MAX, |fan| fan as u32);
    records.extend(edges.iter().map(|e| {
        let [low, high] = e.faces;
        vec![
            e.curve.0,
            field(e.sense),
            fan(e.from),
            fan(e.to),
            low as u32,
            high as u32,
            u32::from(e.active),
        ]
    }));
    for (face, l, uses) in tables.loops() {
        let items = &loops[face][l];
        let mut record = vec![tables.face_of(uses[0]), items.len() as u32];
        record.extend(items.iter().flat_map(|&(e, s)| [e as u32, field(s)]));
        records.push(record);
    }
    records
}
