//! Sewing: all stages in order, with the contact tests between them.

use super::body::{self, BodyRecord};
use super::contact;
use super::edges::{self, EdgeTable};
use super::fans::{self, Fans};
use super::job::Job;
use super::joining::{self, Joined};
use super::load::load;
use super::loops::{self, UseLoop};
use super::lumps::{self, Lumps};
use super::merge::{self, Merged};
use super::pair;
use super::questions::{Answers, Asker, Question};
use super::read::{self, Reading};
use super::refusal::Refusal;
use super::rules::{Profile, Rules, Supplied};
use super::shells::{self, Shells};
use super::vertex_loops::{self, VertexLoop};
use super::walk::{self, Step};

/// What the stages gave, up to the one that refused.
#[derive(Default)]
pub struct Trail {
    pub reading: Option<Reading>,
    pub twins: Option<Vec<usize>>,
    pub merged: Option<Merged>,
    pub vertex_loops: Option<Vec<VertexLoop>>,
    pub steps: Option<Vec<Option<Step>>>,
    pub loops: Option<Vec<UseLoop>>,
    pub fans: Option<Fans>,
    pub edges: Option<EdgeTable>,
    pub joined: Option<Joined>,
    pub shells: Option<Shells>,
    pub lumps: Option<Lumps>,
    pub body: Option<Vec<BodyRecord>>,
    pub refusal: Option<Refusal>,
    /// The questions in the order put.
    pub asked: Vec<Question>,
}

/// A job's sewing, or the refusal of what was supplied with it or of its loading.
pub type Sewn = Result<Trail, Refusal>;

/// Sews a job from its bytes. What is supplied is tested before the job is
/// looked at.
pub fn sewn(supplied: &Supplied, bytes: &[u8]) -> Sewn {
    let rules = supplied.rules()?;
    let job = load(bytes)?;
    Ok(sew_by(rules, &job, &mut &job.answers))
}

/// Ordinary sewing.
pub fn sew(job: &Job, answers: &mut dyn Answers) -> Trail {
    sew_by(Rules::ORDINARY, job, answers)
}

/// Sews by the rules of a call.
pub fn sew_by(rules: Rules, job: &Job, answers: &mut dyn Answers) -> Trail {
    let mut trail = Trail::default();
    let mut asker = Asker::new(answers);
    trail.refusal = run(rules, job, &mut asker, &mut trail).err();
    trail.asked = asker.asked;
    trail
}

fn run(rules: Rules, job: &Job, asker: &mut Asker, trail: &mut Trail) -> Result<(), Refusal> {
    let reading = &*trail.reading.insert(read::read(job));
    let uses = &reading.uses;
    let lists = &read::uses_of_edges(job, uses);
    let twins = &*trail
        .twins
        .insert(pair::pair(rules.profile, uses, lists, asker)?);
    let merged = merge::merge(rules.table, reading, twins, asker)?;
    let merged = &*trail.merged.insert(merged);
    let kept_vertex_loops = vertex_loops::vertex_loops(job, merged, asker)?;
    let vertex_loops = &*trail.vertex_loops.insert(kept_vertex_loops);
    let steps = &*trail.steps.insert(walk::walk(uses, twins, &merged.removed));
    let loops = &*trail.loops.insert(loops::loops(uses, merged, steps));

    let boundary = |face: usize| merged.boundary[face];
    contact::pairs_of_edges(30, lists, uses, twins, boundary)?;
    let fans = &*trail.fans.insert(fans::fans(job, uses, twins, steps));
    if rules.profile == Profile::PrintShop {
        contact::one_fan_at_each_point(fans)?;
    }
    contact::fans_at_points(31, fans, uses, boundary)?;

    let walked = edges::Walked {
        job,
        uses,
        twins,
        merged,
        steps,
        loops,
        fans,
    };
    let table = &*trail.edges.insert(edges::edges(&walked));
    let joined = joining::join_edges(table.clone(), fans, asker)?;
    let joined = &*trail.joined.insert(joined);
    let shells = &*trail
        .shells
        .insert(shells::shells(job.proven, merged, asker)?);
    let lumps = &*trail.lumps.insert(lumps::lumps(shells, asker)?);

    let lump = |face: usize| lumps.of_shell[shells.of_face[face]];
    contact::fans_at_points(32, fans, uses, lump)?;
    contact::pairs_of_edges(33, lists, uses, twins, lump)?;

    trail.body = Some(body::body(&body::Parts {
        job,
        reading,
        merged,
        steps,
        vertex_loops,
        fans,
        joined,
        shells,
        lumps,
    }));
    Ok(())
}
