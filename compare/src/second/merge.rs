//! Merging: boundaries, groups of merged faces, and the removed uses.

use super::partition::Partition;
use super::questions::Asker;
use super::read::Reading;
use super::refusal::Refusal;
use super::rules::Table;

pub struct Merged {
    /// Lowest face of the boundary of each selected face.
    pub boundary: Vec<usize>,
    /// Lowest face of the merged group of each selected face.
    pub group: Vec<usize>,
    /// The lowest faces of the groups, ascending: the merged faces by number.
    pub lowest: Vec<usize>,
    /// Surface questions whose answer joined two groups that were separate.
    pub joins: u32,
    /// Merged face of each selected face.
    pub number: Vec<usize>,
    /// Whether each use is removed.
    pub removed: Vec<bool>,
}

pub fn merge(
    table: Table,
    reading: &Reading,
    twins: &[usize],
    asker: &mut Asker,
) -> Result<Merged, Refusal> {
    let faces = 0..reading.senses.len();
    let boundaries = boundaries(reading, twins);
    let (groups, joins) = groups(table, reading, twins, asker)?;
    let group: Vec<usize> = faces.clone().map(|f| groups.lowest(f)).collect();
    let lowest: Vec<usize> = faces.clone().filter(|&f| group[f] == f).collect();
    let below = |f: usize| lowest.iter().filter(|&&other| other < f).count();
    let number = group.iter().map(|&lowest_member| below(lowest_member));
    Ok(Merged {
        boundary: faces.map(|f| boundaries.lowest(f)).collect(),
        number: number.collect(),
        removed: removed(reading, twins, &group),
        joins,
        group,
        lowest,
    })
}

/// Boundaries join the faces of every twin pair.
fn boundaries(reading: &Reading, twins: &[usize]) -> Partition {
    let mut boundaries = Partition::new(reading.senses.len());
    for (h, &twin) in twins.iter().enumerate() {
        boundaries.join(reading.uses[h].face, reading.uses[twin].face);
    }
    boundaries
}

/// Groups join where the surface is the same and the table has a 1 for normals
/// and senses; and how many questions changed them. Each question is put,
/// whatever the table has.
fn groups(
    table: Table,
    reading: &Reading,
    twins: &[usize],
    asker: &mut Asker,
) -> Result<(Partition, u32), Refusal> {
    let mut groups = Partition::new(reading.senses.len());
    let mut joins = 0;
    for (h, &twin) in twins.iter().enumerate() {
        let (a, b) = (reading.uses[h].face, reading.uses[twin].face);
        if h > twin || a == b {
            continue;
        }
        if let Some(normals_agree) = asker.surface(h)? {
            let senses_equal = reading.senses[a] == reading.senses[b];
            if table.joins(normals_agree, senses_equal) && groups.join(a, b) {
                joins += 1;
            }
        }
    }
    Ok((groups, joins))
}

/// A use goes when its face and its twin's have one group; so does a seam.
fn removed(reading: &Reading, twins: &[usize], group: &[usize]) -> Vec<bool> {
    let group_of = |h: usize| group[reading.uses[h].face];
    twins
        .iter()
        .enumerate()
        .map(|(h, &twin)| group_of(h) == group_of(twin))
        .collect()
}
