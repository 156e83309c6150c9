//! Holds the calls of a session and what they work on, on both sides: whole, or within a budget of byte stores.

use crate::cases::Case;
use crate::{library, second};
use comparison::{fault_of, loaded_of, same, same_list, same_session, session_of};
use lapurmihi::raw::{self, Fault, LoadAnswer};
use lapurmihi::CELLS;

/// What stands in a table before anything is put there.
const CELL: i64 = -77;
/// How many bytes and cells are lent beyond what is needed.
const MORE: usize = 3;

/// A call with all that it is given beside the record, the image and the table.
pub enum Call<'a> {
    /// With the ranks and the sizes of a session.
    Open {
        plan: raw::Plan,
        case: &'a Case,
        prefix: &'a [u8],
    },
    Write {
        task: u64,
        bytes: &'a [u8],
    },
    Close,
}

/// The refusal number or 0, and the length that an accepted close reports.
pub type Answer = (u32, u64);

/// What a call works on, on one side, which has its own kind of record.
#[derive(Clone)]
pub struct Held<S> {
    pub session: S,
    pub image: Vec<u8>,
    pub table: Vec<i64>,
}

/// What a call works on, on the library's side and on the reference's.
#[derive(Clone)]
pub struct Both {
    pub ours: Held<raw::Session>,
    theirs: Held<reference::Session>,
}

impl<S: Clone> Held<S> {
    /// Becomes a copy of one as long.
    fn copy(&mut self, other: &Held<S>) {
        self.session.clone_from(&other.session);
        self.image.copy_from_slice(&other.image);
        self.table.copy_from_slice(&other.table);
    }
}

impl Both {
    /// An image of one kind of byte, and a table, each a little longer than a session needs; the record is one that nothing accepts.
    pub fn new(case: &Case, byte: u8) -> Both {
        let image = vec![byte; case.bytes + MORE];
        let table = vec![CELL; case.sizes.len() * case.k as usize + MORE];
        let session = reference::Session::refused();
        let theirs = Held { session, image: image.clone(), table: table.clone() };
        let session = session_of(&theirs.session);
        Both { ours: Held { session, image, table }, theirs }
    }

    /// The same with another image, as long as its own.
    pub fn over(mut self, image: &[u8]) -> Both {
        self.ours.image.copy_from_slice(image);
        self.theirs.image.copy_from_slice(image);
        self
    }

    /// Becomes a copy of another, image and all.
    pub fn copy(&mut self, other: &Both) {
        self.ours.copy(&other.ours);
        self.theirs.copy(&other.theirs);
    }

    /// Takes the record and the table of another, and keeps its image.
    pub fn back_to(&mut self, other: &Both) {
        self.ours.session = other.ours.session;
        self.ours.table.copy_from_slice(&other.ours.table);
        self.theirs.session.clone_from(&other.theirs.session);
        self.theirs.table.copy_from_slice(&other.theirs.table);
    }

    /// Lends one byte fewer than a session needs.
    pub fn too_short(mut self, case: &Case) -> Both {
        self.ours.image.truncate(case.bytes - 1);
        self.theirs.image.truncate(case.bytes - 1);
        self
    }

    /// Makes a call on both sides, whole or within a budget: they answer alike, and leave the same record, image and table.
    pub fn call(&mut self, call: &Call, budget: Option<u64>) -> Result<Answer, String> {
        let answer = library::answer(call, &mut self.ours, budget);
        same("the answer", answer, second::answer(call, &mut self.theirs, budget))?;
        same_session(&self.ours.session, &session_of(&self.theirs.session))?;
        same_list("the image", &self.ours.image, &self.theirs.image)?;
        same_list("the table", &self.ours.table, &self.theirs.table)?;
        Ok(answer)
    }

    /// Holds the record and the table to those of another, whatever the images are.
    pub fn same_but_image(&self, wanted: &Both) -> Result<(), String> {
        same_session(&self.ours.session, &wanted.ours.session)?;
        same_list("the table", &self.ours.table, &wanted.ours.table)
    }

    /// Loads the image on both sides, with a table that is long enough: they answer alike, and leave the same table. Gives the refusal number
    /// or 0.
    pub fn load(&self) -> Result<u32, String> {
        let (mut ours, mut theirs) = ([CELL; CELLS], [CELL; CELLS]);
        let answer = raw::load(&self.ours.image, &mut ours);
        let wanted = match reference::load(&self.theirs.image, &mut theirs) {
            Ok(loaded) => {
                let (loaded, fault) = (loaded_of(&loaded), Fault::default());
                LoadAnswer { loaded, refusal: 0, fault }
            }
            Err(fault) => {
                let loaded = loaded_of(&reference::Loaded::refused());
                LoadAnswer { loaded, refusal: fault.refusal, fault: fault_of(&fault) }
            }
        };
        same("the load", answer, wanted)?;
        same_list("the table of the load", &ours, &theirs)?;
        Ok(answer.refusal)
    }
}
