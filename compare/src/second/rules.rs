//! What a caller may set. Document 01's own rules are `Rules::ORDINARY`.

use super::refusal::{Refusal, refusal};

/// What a call supplies besides its job.
#[derive(Clone, PartialEq, Eq, Debug)]
pub enum Supplied {
    Nothing,
    /// The bytes of a joining table.
    Table(Vec<u8>),
    /// The word that the body is for a print shop.
    PrintShop,
}

impl Supplied {
    /// The rules that are meant, or the refusal of what was supplied.
    pub fn rules(&self) -> Result<Rules, Refusal> {
        match self {
            Self::Nothing => Ok(Rules::ORDINARY),
            Self::Table(bytes) => Ok(Rules {
                table: Table::of_bytes(bytes)?,
                ..Rules::ORDINARY
            }),
            Self::PrintShop => Ok(Rules::PRINT_SHOP),
        }
    }
}

/// The rules of one call, handed on as one value.
#[derive(Clone, Copy, PartialEq, Eq, Debug)]
pub struct Rules {
    pub table: Table,
    pub profile: Profile,
}

impl Rules {
    pub const ORDINARY: Self = Self {
        table: Table::FULL,
        profile: Profile::AnyContact,
    };

    pub const PRINT_SHOP: Self = Self {
        profile: Profile::PrintShop,
        ..Self::ORDINARY
    };
}

/// How boundaries may touch themselves and each other.
#[derive(Clone, Copy, PartialEq, Eq, Debug)]
pub enum Profile {
    /// As the contact tests of document 01 have it.
    AnyContact,
    /// Each edge has two uses and each point one fan, else 41 and 42.
    PrintShop,
}

/// Which surface answers join. Rows by answer, 1 then 2; columns by the stored
/// senses, equal then different.
#[derive(Clone, Copy, PartialEq, Eq, Debug)]
pub struct Table([[bool; 2]; 2]);

impl Table {
    /// Document 01's merging rule: (value is 1) equals (stored senses are equal).
    pub const FULL: Self = Self([[true, false], [false, true]]);

    /// A table from its four bytes. Each is 0 or 1, and a 1 stands only where the
    /// merging rule joins; so no byte is above that of the full table.
    pub fn of_bytes(bytes: &[u8]) -> Result<Self, Refusal> {
        let bytes: [u8; 4] = bytes.try_into().map_err(|_| refusal(48, 4))?;
        let most = Self::FULL.0.as_flattened();
        for (i, joins) in most.iter().enumerate() {
            if bytes[i] > u8::from(*joins) {
                return Err(refusal(48, i));
            }
        }
        let one = |i: usize| bytes[i] == 1;
        Ok(Self([[one(0), one(1)], [one(2), one(3)]]))
    }

    /// Whether faces join whose surfaces are the same.
    pub fn joins(self, normals_agree: bool, senses_equal: bool) -> bool {
        let row = self.0[usize::from(!normals_agree)];
        row[usize::from(!senses_equal)]
    }
}
