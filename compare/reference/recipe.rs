//! Stand-ins for names. A selected face's origin is its number, so the merged
//! faces show their members.

#[derive(Clone, PartialEq, Eq)]
pub(crate) struct Origin(pub(crate) usize);

#[derive(Clone)]
pub(crate) struct EdgeName([Origin; 2]);

impl EdgeName {
    pub(crate) fn new(a: Origin, b: Origin) -> Result<Self, ()> {
        Ok(Self([a, b]))
    }
    pub(crate) fn between(&self) -> [&Origin; 2] {
        [&self.0[0], &self.0[1]]
    }
}
