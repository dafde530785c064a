//! A proved voxel world with versions, in safe Rust over `include/voxdag.h`.
//!
//! Every change answers the number of the version that it made, and each version can be asked until it is forgotten. A
//! [`World`] is `Send` and not `Sync`: put it behind a `Mutex` to share it. [`Versions`] are a file that is only asked. What the header at hand doesn't have isn't
//! here either.

use std::error::Error;
use std::ffi::c_void;
use std::fmt;
use std::ptr::null_mut;

/// Why a call was refused: the statuses of `voxdag.h`. A journal's line is told where one is at fault, of a scene the
/// kind and the place of what is wrong, and of a file of versions the place of its first fault.
#[derive(Clone, Copy, Debug, PartialEq, Eq)]
#[non_exhaustive]
pub enum Refusal {
    NoMemory,
    Outside,
    NoVersion,
    Forgotten,
    NothingToUndo,
    NothingToRedo,
    HistoryFull,
    StoreFull,
    IsNewest,
    BadPlan,
    NoModel,
    BadFile,
    BadWay,
    BadJournal { line: u32 },
    NotLegal { line: u32 },
    OtherKind,
    BadTint,
    BadScene { kind: u32, at: u32 },
    BadDag { at: u64 },
    Other(u32),
}

impl Refusal {
    fn of(status: u32, line: u32) -> Refusal {
        match status {
            2 => Refusal::NoMemory,
            3 => Refusal::Outside,
            4 => Refusal::NoVersion,
            5 => Refusal::Forgotten,
            6 => Refusal::NothingToUndo,
            7 => Refusal::NothingToRedo,
            8 => Refusal::HistoryFull,
            9 => Refusal::StoreFull,
            10 => Refusal::IsNewest,
            12 => Refusal::BadPlan,
            14 => Refusal::NoModel,
            15 => Refusal::BadFile,
            16 => Refusal::BadWay,
            18 => Refusal::BadJournal { line },
            19 => Refusal::NotLegal { line },
            20 => Refusal::OtherKind,
            21 => Refusal::BadTint,
            22 => Refusal::BadScene { kind: 0, at: 0 },
            23 => Refusal::BadDag { at: 0 },
            other => Refusal::Other(other),
        }
    }
}

impl fmt::Display for Refusal {
    fn fmt(&self, f: &mut fmt::Formatter<'_>) -> fmt::Result {
        match self {
            Refusal::NoMemory => write!(f, "want of memory"),
            Refusal::Outside => write!(f, "it leaves the world, or a size is 0"),
            Refusal::NoVersion => write!(f, "there is no such version yet"),
            Refusal::Forgotten => write!(f, "the version was forgotten"),
            Refusal::NothingToUndo => write!(f, "no change is left to undo"),
            Refusal::NothingToRedo => write!(f, "no undo is left to take back"),
            Refusal::HistoryFull => write!(f, "there are 65,535 changes, the most that a history has"),
            Refusal::StoreFull => write!(f, "a bucket of the store has no room for what the change needs"),
            Refusal::IsNewest => write!(f, "the newest version can't be forgotten"),
            Refusal::BadPlan => write!(f, "no side of a world, or no number of slots of a bucket"),
            Refusal::NoModel => write!(f, "there is no model of this number"),
            Refusal::BadFile => write!(f, "no VOX file whose models can be read"),
            Refusal::BadWay => write!(f, "a ray's steps are over 1,024, or all of them 0"),
            Refusal::BadJournal { line } => write!(f, "no journal, line {line}"),
            Refusal::NotLegal { line } => write!(f, "a record that breaks a rule of a legal history, line {line}"),
            Refusal::OtherKind => write!(f, "a call for the other kind of world: with tints, or without"),
            Refusal::BadTint => write!(f, "a tint isn't from 1 to 255"),
            Refusal::BadScene { kind, at } => write!(f, "the file's scene breaks a rule: kind {kind}, at {at}"),
            Refusal::BadDag { at } => write!(f, "no file of versions: a broken rule at byte {at}"),
            Refusal::Other(status) => write!(f, "status {status}"),
        }
    }
}

impl Error for Refusal {}

type Answer<T> = Result<T, Refusal>;

/// A place, or a size, in cells.
#[repr(C)]
#[derive(Clone, Copy, Debug, Default, PartialEq, Eq)]
pub struct Place {
    pub x: u32,
    pub y: u32,
    pub z: u32,
}

/// A box: its least corner and its size.
#[repr(C)]
#[derive(Clone, Copy, Debug, Default, PartialEq, Eq)]
pub struct Boxed {
    pub at: Place,
    pub size: Place,
}

pub fn place(x: u32, y: u32, z: u32) -> Place {
    Place { x, y, z }
}

/// How a world is opened: what is 0 is as usual.
#[repr(C)]
#[derive(Clone, Copy, Debug, Default, PartialEq, Eq)]
pub struct Plan {
    /// 4, 8, 16, .. 4096; with tints at most 1024.
    pub side: u32,
    /// Slots of a bucket, 1 to 256; 0 for 128.
    pub cap: u32,
    /// How many of the last versions are kept; 0 for all.
    pub keep: u32,
    /// 1 where cells have tints.
    pub tints: u32,
}

/// What is told of a scene.
#[cfg(voxdag = "open_scene")]
#[repr(C)]
#[derive(Default)]
struct Scene {
    placements: u32,
    kind: u32,
    at: u32,
}

/// A cell that can be seen: its place from the box's corner, its tint (1 in a world without tints), and which sides are
/// bare, bits 0 to 5 for -x +x -y +y -z +z.
#[repr(C)]
#[derive(Clone, Copy, Debug, Default, PartialEq, Eq)]
pub struct Shown {
    pub x: u8,
    pub y: u8,
    pub z: u8,
    pub tint: u8,
    pub sides: u8,
}

/// A side of a cell.
#[derive(Clone, Copy, Debug, PartialEq, Eq)]
pub enum Side {
    Left,
    Right,
    Front,
    Back,
    Bottom,
    Top,
}

impl Shown {
    /// The bare sides: of -x +x -y +y -z +z those that have nothing beside them.
    pub fn bare(self) -> impl Iterator<Item = Side> {
        let all = [Side::Left, Side::Right, Side::Front, Side::Back, Side::Bottom, Side::Top];
        all.into_iter().enumerate().filter(move |(at, _)| self.sides >> at & 1 == 1).map(|(_, side)| side)
    }
}

#[repr(C)]
struct Handle {
    is_open: bool,
    at: *mut c_void,
}

// The header's functions, behind the handle.
macro_rules! calls {
    ($($name:ident($($argument:ident: $kind:ty),*);)*) => {
        extern "C" {
            $(fn $name(w: *mut Handle, $($argument: $kind),*) -> u32;)*
        }
    };
}

calls! {
    voxdag_open_with(side: u32, cap: u32, file: *const u8, size: usize);
    voxdag_close();
    voxdag_fill(part: *const Boxed);
    voxdag_erase(part: *const Boxed);
    voxdag_ball(centre: *const Place, radius: u32);
    voxdag_carve(centre: *const Place, radius: u32);
    voxdag_copy(part: *const Boxed, to: *const Place);
    voxdag_stamp(model: u32, at: *const Place);
    voxdag_undo();
    voxdag_redo();
    voxdag_forget(version: u32);
    voxdag_newest(version: *mut u32);
    voxdag_model_size(model: u32, size: *mut Place);
    voxdag_get(version: u32, at: *const Place, set: *mut bool);
    voxdag_count(version: u32, part: *const Boxed, cells: *mut u64);
    voxdag_faces(version: u32, part: *const Boxed, faces: *mut u64);
    voxdag_bounds(version: u32, some: *mut bool, least: *mut Boxed);
    voxdag_ray(version: u32, from: *const Place, dx: i32, dy: i32, dz: i32, some: *mut bool, hit: *mut Place);
    voxdag_same(a: u32, b: u32, same: *mut bool);
    voxdag_save(version: u32, part: *const Boxed, out: *mut u8, size: usize, needed: *mut usize);
    voxdag_journal(out: *mut u8, size: usize, needed: *mut usize);
}

#[cfg(voxdag = "open_as")]
calls! { voxdag_open_as(plan: *const Plan, file: *const u8, size: usize); }
#[cfg(voxdag = "open_journal")]
calls! {
    voxdag_open_journal(plan: *const Plan, file: *const u8, size: usize, journal: *const u8, length: usize, line: *mut u32);
}
#[cfg(voxdag = "open_scene")]
calls! { voxdag_open_scene(plan: *const Plan, file: *const u8, size: usize, scene: *mut Scene); }
#[cfg(voxdag = "versions_open")]
calls! {
    voxdag_versions_open(file: *const u8, size: usize, at: *mut u64);
    voxdag_versions_close();
    voxdag_versions_side(side: *mut u32);
    voxdag_versions_newest(version: *mut u32);
    voxdag_versions_get(version: u32, at: *const Place, set: *mut bool);
    voxdag_versions_count(version: u32, part: *const Boxed, cells: *mut u64);
    voxdag_versions_faces(version: u32, part: *const Boxed, faces: *mut u64);
    voxdag_versions_bounds(version: u32, some: *mut bool, least: *mut Boxed);
    voxdag_versions_ray(version: u32, from: *const Place, dx: i32, dy: i32, dz: i32, some: *mut bool, hit: *mut Place);
    voxdag_versions_same(a: u32, b: u32, same: *mut bool);
    voxdag_versions_changes(a: u32, b: u32, some: *mut bool, least: *mut Boxed);
    voxdag_versions_save(version: u32, part: *const Boxed, out: *mut u8, size: usize, needed: *mut usize);
    voxdag_versions_surface(version: u32, part: *const Boxed, out: *mut Shown, room: usize, needed: *mut usize);
    voxdag_versions_flood(version: u32, part: *const Boxed, from: *const Place, cells: *mut u64, out: *mut u8, size: usize, needed: *mut usize);
}
#[cfg(voxdag = "about")]
calls! { voxdag_about(plan: *mut Plan); }
#[cfg(voxdag = "fill_tint")]
calls! { voxdag_fill_tint(part: *const Boxed, tint: u32); }
#[cfg(voxdag = "ball_tint")]
calls! { voxdag_ball_tint(centre: *const Place, radius: u32, tint: u32); }
#[cfg(voxdag = "colour")]
calls! { voxdag_colour(version: u32, at: *const Place, tint: *mut u8); }
#[cfg(voxdag = "changes")]
calls! { voxdag_changes(a: u32, b: u32, some: *mut bool, least: *mut Boxed); }
#[cfg(voxdag = "surface")]
calls! { voxdag_surface(version: u32, part: *const Boxed, out: *mut Shown, room: usize, needed: *mut usize); }
#[cfg(voxdag = "flood")]
calls! {
    voxdag_flood(version: u32, part: *const Boxed, from: *const Place, cells: *mut u64, out: *mut u8, size: usize, needed: *mut usize);
}
#[cfg(voxdag = "dag")]
calls! { voxdag_dag(out: *mut u8, size: usize, needed: *mut usize); }

/// A world, which is closed when it is dropped.
pub struct World(Handle);

// One call at a time, which `&mut self` sees to: docs/LIBRARY.md, "Threads".
unsafe impl Send for World {}

fn told(status: u32) -> Answer<()> {
    match status {
        0 => Ok(()),
        refused => Err(Refusal::of(refused, 0)),
    }
}

// Each call hands references to live values, which are apart from each other; the handle is the world's own.
impl World {
    fn closed() -> World {
        World(Handle { is_open: false, at: null_mut() })
    }

    /// An empty world: `side` is 4, 8, 16, .., 4096, `cap` 1 to 256 or 0 for the usual number, and `file` a VOX file
    /// whose models can be stamped, or empty.
    pub fn open(side: u32, cap: u32, file: &[u8]) -> Answer<World> {
        let mut w = World::closed();
        told(unsafe { voxdag_open_with(&mut w.0, side, cap, file.as_ptr(), file.len()) })?;
        Ok(w)
    }

    /// The same by a plan.
    #[cfg(voxdag = "open_as")]
    pub fn open_as(plan: &Plan, file: &[u8]) -> Answer<World> {
        let mut w = World::closed();
        told(unsafe { voxdag_open_as(&mut w.0, plan, file.as_ptr(), file.len()) })?;
        Ok(w)
    }

    /// The world of a journal: the same versions, undos, redos and forgotten versions as when it was written.
    #[cfg(voxdag = "open_journal")]
    pub fn open_journal(plan: &Plan, file: &[u8], journal: &[u8]) -> Answer<World> {
        let (mut w, mut line) = (World::closed(), 0);
        let status = unsafe { voxdag_open_journal(&mut w.0, plan, file.as_ptr(), file.len(), journal.as_ptr(), journal.len(), &mut line) };
        match status {
            0 => Ok(w),
            refused => Err(Refusal::of(refused, line)),
        }
    }

    /// The world of a VOX file's scene, and how many models stand in it: each is turned, and stamped where it stands. Side 0
    /// is the least that holds all.
    #[cfg(voxdag = "open_scene")]
    pub fn open_scene(plan: &Plan, file: &[u8]) -> Answer<(World, u32)> {
        let (mut w, mut scene) = (World::closed(), Scene::default());
        match told(unsafe { voxdag_open_scene(&mut w.0, plan, file.as_ptr(), file.len(), &mut scene) }) {
            Ok(()) => Ok((w, scene.placements)),
            Err(Refusal::BadScene { .. }) => Err(Refusal::BadScene { kind: scene.kind, at: scene.at }),
            Err(other) => Err(other),
        }
    }

    /// How the world is open: its side, its cap as a number from 1 to 256, how many of its last versions it keeps, 0 for all, and its
    /// tints.
    #[cfg(voxdag = "about")]
    pub fn about(&mut self) -> Answer<Plan> {
        let mut plan = Plan::default();
        told(unsafe { voxdag_about(&mut self.0, &mut plan) })?;
        Ok(plan)
    }

    // The number of the version that a change made.
    fn made(&mut self, status: u32) -> Answer<u32> {
        told(status)?;
        self.newest()
    }

    pub fn fill(&mut self, part: Boxed) -> Answer<u32> {
        let status = unsafe { voxdag_fill(&mut self.0, &part) };
        self.made(status)
    }

    #[cfg(voxdag = "fill_tint")]
    pub fn fill_tint(&mut self, part: Boxed, tint: u32) -> Answer<u32> {
        let status = unsafe { voxdag_fill_tint(&mut self.0, &part, tint) };
        self.made(status)
    }

    pub fn erase(&mut self, part: Boxed) -> Answer<u32> {
        let status = unsafe { voxdag_erase(&mut self.0, &part) };
        self.made(status)
    }

    pub fn ball(&mut self, centre: Place, radius: u32) -> Answer<u32> {
        let status = unsafe { voxdag_ball(&mut self.0, &centre, radius) };
        self.made(status)
    }

    #[cfg(voxdag = "ball_tint")]
    pub fn ball_tint(&mut self, centre: Place, radius: u32, tint: u32) -> Answer<u32> {
        let status = unsafe { voxdag_ball_tint(&mut self.0, &centre, radius, tint) };
        self.made(status)
    }

    pub fn carve(&mut self, centre: Place, radius: u32) -> Answer<u32> {
        let status = unsafe { voxdag_carve(&mut self.0, &centre, radius) };
        self.made(status)
    }

    pub fn copy(&mut self, part: Boxed, to: Place) -> Answer<u32> {
        let status = unsafe { voxdag_copy(&mut self.0, &part, &to) };
        self.made(status)
    }

    pub fn stamp(&mut self, model: u32, at: Place) -> Answer<u32> {
        let status = unsafe { voxdag_stamp(&mut self.0, model, &at) };
        self.made(status)
    }

    pub fn undo(&mut self) -> Answer<u32> {
        let status = unsafe { voxdag_undo(&mut self.0) };
        self.made(status)
    }

    pub fn redo(&mut self) -> Answer<u32> {
        let status = unsafe { voxdag_redo(&mut self.0) };
        self.made(status)
    }

    pub fn forget(&mut self, version: u32) -> Answer<()> {
        told(unsafe { voxdag_forget(&mut self.0, version) })
    }

    /// The number of the newest version.
    pub fn newest(&mut self) -> Answer<u32> {
        let mut version = 0;
        told(unsafe { voxdag_newest(&mut self.0, &mut version) })?;
        Ok(version)
    }

    pub fn model_size(&mut self, model: u32) -> Answer<Place> {
        let mut size = Place::default();
        told(unsafe { voxdag_model_size(&mut self.0, model, &mut size) })?;
        Ok(size)
    }

    pub fn get(&mut self, version: u32, at: Place) -> Answer<bool> {
        let mut set = false;
        told(unsafe { voxdag_get(&mut self.0, version, &at, &mut set) })?;
        Ok(set)
    }

    /// The tint of a cell, 0 where it is clear.
    #[cfg(voxdag = "colour")]
    pub fn colour(&mut self, version: u32, at: Place) -> Answer<u8> {
        let mut tint = 0;
        told(unsafe { voxdag_colour(&mut self.0, version, &at, &mut tint) })?;
        Ok(tint)
    }

    pub fn count(&mut self, version: u32, part: Boxed) -> Answer<u64> {
        let mut cells = 0;
        told(unsafe { voxdag_count(&mut self.0, version, &part, &mut cells) })?;
        Ok(cells)
    }

    pub fn faces(&mut self, version: u32, part: Boxed) -> Answer<u64> {
        let mut faces = 0;
        told(unsafe { voxdag_faces(&mut self.0, version, &part, &mut faces) })?;
        Ok(faces)
    }

    /// The least box of all set cells, where there are any.
    pub fn bounds(&mut self, version: u32) -> Answer<Option<Boxed>> {
        let (mut some, mut least) = (false, Boxed::default());
        told(unsafe { voxdag_bounds(&mut self.0, version, &mut some, &mut least) })?;
        Ok(some.then_some(least))
    }

    /// The least box of all cells that differ between two versions, by their tints too, where some do.
    #[cfg(voxdag = "changes")]
    pub fn changes(&mut self, a: u32, b: u32) -> Answer<Option<Boxed>> {
        let (mut some, mut least) = (false, Boxed::default());
        told(unsafe { voxdag_changes(&mut self.0, a, b, &mut some, &mut least) })?;
        Ok(some.then_some(least))
    }

    /// The first set cell on the ray with these steps on the three axes, where there is one.
    pub fn ray(&mut self, version: u32, from: Place, steps: [i32; 3]) -> Answer<Option<Place>> {
        let (mut some, mut hit) = (false, Place::default());
        let [dx, dy, dz] = steps;
        told(unsafe { voxdag_ray(&mut self.0, version, &from, dx, dy, dz, &mut some, &mut hit) })?;
        Ok(some.then_some(hit))
    }

    pub fn same(&mut self, a: u32, b: u32) -> Answer<bool> {
        let mut same = false;
        told(unsafe { voxdag_same(&mut self.0, a, b, &mut same) })?;
        Ok(same)
    }

    /// The set cells of a box, at most 256 each way, that have an unset neighbour or the world's outside beside them, by
    /// rising z, then y, then x, each with its tint.
    #[cfg(voxdag = "surface")]
    pub fn surface(&mut self, version: u32, part: Boxed) -> Answer<Vec<Shown>> {
        let handle = &mut self.0;
        whole(|out, room, needed| unsafe { voxdag_surface(handle, version, &part, out, room, needed) })
    }

    /// The VOX file of a box of a version.
    pub fn save(&mut self, version: u32, part: Boxed) -> Answer<Vec<u8>> {
        let handle = &mut self.0;
        whole(|out, size, needed| unsafe { voxdag_save(handle, version, &part, out, size, needed) })
    }

    /// How many unset cells of a box steps from a cell lead to, and their VOX file.
    #[cfg(voxdag = "flood")]
    pub fn flood(&mut self, version: u32, part: Boxed, from: Place) -> Answer<(u64, Vec<u8>)> {
        let (handle, mut cells) = (&mut self.0, 0);
        let file = whole(|out, size, needed| unsafe { voxdag_flood(handle, version, &part, &from, &mut cells, out, size, needed) })?;
        Ok((cells, file))
    }

    /// The text of the journal.
    pub fn journal(&mut self) -> Answer<Vec<u8>> {
        let handle = &mut self.0;
        whole(|out, size, needed| unsafe { voxdag_journal(handle, out, size, needed) })
    }

    /// The file of the versions that are held.
    #[cfg(voxdag = "dag")]
    pub fn dag(&mut self) -> Answer<Vec<u8>> {
        let handle = &mut self.0;
        whole(|out, size, needed| unsafe { voxdag_dag(handle, out, size, needed) })
    }
}

/// A file of versions that is only asked. It is closed when it is dropped.
#[cfg(voxdag = "versions_open")]
pub struct Versions(Handle);

#[cfg(voxdag = "versions_open")]
unsafe impl Send for Versions {}

#[cfg(voxdag = "versions_open")]
impl Versions {
    /// The file of these bytes, of which a copy is kept.
    pub fn open(file: &[u8]) -> Answer<Versions> {
        let (mut v, mut at) = (Versions(Handle { is_open: false, at: null_mut() }), 0);
        match told(unsafe { voxdag_versions_open(&mut v.0, file.as_ptr(), file.len(), &mut at) }) {
            Ok(()) => Ok(v),
            Err(Refusal::BadDag { .. }) => Err(Refusal::BadDag { at }),
            Err(other) => Err(other),
        }
    }

    /// The side of its worlds: of a world with tints that of its store, which is four times as long.
    pub fn side(&mut self) -> Answer<u32> {
        let mut side = 0;
        told(unsafe { voxdag_versions_side(&mut self.0, &mut side) })?;
        Ok(side)
    }

    /// The greatest number of a version.
    pub fn newest(&mut self) -> Answer<u32> {
        let mut version = 0;
        told(unsafe { voxdag_versions_newest(&mut self.0, &mut version) })?;
        Ok(version)
    }

    pub fn get(&mut self, version: u32, at: Place) -> Answer<bool> {
        let mut set = false;
        told(unsafe { voxdag_versions_get(&mut self.0, version, &at, &mut set) })?;
        Ok(set)
    }

    pub fn count(&mut self, version: u32, part: Boxed) -> Answer<u64> {
        let mut cells = 0;
        told(unsafe { voxdag_versions_count(&mut self.0, version, &part, &mut cells) })?;
        Ok(cells)
    }

    pub fn faces(&mut self, version: u32, part: Boxed) -> Answer<u64> {
        let mut faces = 0;
        told(unsafe { voxdag_versions_faces(&mut self.0, version, &part, &mut faces) })?;
        Ok(faces)
    }

    /// The least box of all set cells, where there are any.
    pub fn bounds(&mut self, version: u32) -> Answer<Option<Boxed>> {
        let (mut some, mut least) = (false, Boxed::default());
        told(unsafe { voxdag_versions_bounds(&mut self.0, version, &mut some, &mut least) })?;
        Ok(some.then_some(least))
    }

    /// The first set cell on the ray with these steps on the three axes, where there is one.
    pub fn ray(&mut self, version: u32, from: Place, steps: [i32; 3]) -> Answer<Option<Place>> {
        let (mut some, mut hit) = (false, Place::default());
        let [dx, dy, dz] = steps;
        told(unsafe { voxdag_versions_ray(&mut self.0, version, &from, dx, dy, dz, &mut some, &mut hit) })?;
        Ok(some.then_some(hit))
    }

    pub fn same(&mut self, a: u32, b: u32) -> Answer<bool> {
        let mut same = false;
        told(unsafe { voxdag_versions_same(&mut self.0, a, b, &mut same) })?;
        Ok(same)
    }

    /// The least box of all cells that differ between two versions, where some do.
    pub fn changes(&mut self, a: u32, b: u32) -> Answer<Option<Boxed>> {
        let (mut some, mut least) = (false, Boxed::default());
        told(unsafe { voxdag_versions_changes(&mut self.0, a, b, &mut some, &mut least) })?;
        Ok(some.then_some(least))
    }

    /// What can be seen of a box of a version, each cell with tint 1.
    pub fn surface(&mut self, version: u32, part: Boxed) -> Answer<Vec<Shown>> {
        let handle = &mut self.0;
        whole(|out, room, needed| unsafe { voxdag_versions_surface(handle, version, &part, out, room, needed) })
    }

    /// The VOX file of a box of a version.
    pub fn save(&mut self, version: u32, part: Boxed) -> Answer<Vec<u8>> {
        let handle = &mut self.0;
        whole(|out, size, needed| unsafe { voxdag_versions_save(handle, version, &part, out, size, needed) })
    }

    /// How many unset cells of a box steps from a cell lead to, and their VOX file.
    pub fn flood(&mut self, version: u32, part: Boxed, from: Place) -> Answer<(u64, Vec<u8>)> {
        let (handle, mut cells) = (&mut self.0, 0);
        let file = whole(|out, size, needed| unsafe { voxdag_versions_flood(handle, version, &part, &from, &mut cells, out, size, needed) })?;
        Ok((cells, file))
    }
}

#[cfg(voxdag = "versions_open")]
impl Drop for Versions {
    fn drop(&mut self) {
        unsafe { voxdag_versions_close(&mut self.0) };
    }
}

// Asks how many there are, and then for them.
fn whole<T: Clone + Default>(mut write: impl FnMut(*mut T, usize, &mut usize) -> u32) -> Answer<Vec<T>> {
    let mut needed = 0;
    match write(null_mut(), 0, &mut needed) {
        0 | 11 => {}
        refused => return Err(Refusal::of(refused, 0)),
    }
    let mut out = vec![T::default(); needed];
    told(write(out.as_mut_ptr(), needed, &mut needed))?;
    Ok(out)
}

impl Drop for World {
    fn drop(&mut self) {
        unsafe { voxdag_close(&mut self.0) };
    }
}
