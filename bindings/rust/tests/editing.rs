use std::sync::{Arc, Mutex};
use std::thread;
use voxdag::{place, Boxed, Place, Refusal, World};

fn boxed(at: Place, size: Place) -> Boxed {
    Boxed { at, size }
}

#[test]
fn a_world_is_edited_asked_undone_saved_and_shared() -> Result<(), Refusal> {
    let all = boxed(place(0, 0, 0), place(64, 64, 64));
    let cube = boxed(place(0, 0, 0), place(8, 8, 8));
    let mut world = World::open(64, 0, &[])?;
    world.fill(cube)?;
    world.erase(boxed(place(0, 0, 0), place(8, 8, 4)))?;
    assert_eq!(world.count(1, all)?, 512);
    assert_eq!(world.count(2, all)?, 256);
    assert_eq!(world.faces(1, all)?, 384);
    assert_eq!(world.bounds(2)?, Some(boxed(place(0, 0, 4), place(8, 8, 4))));
    assert_eq!(world.bounds(0)?, None);
    assert_eq!(world.ray(1, place(63, 0, 0), [-1, 0, 0])?, Some(place(7, 0, 0)));
    assert_eq!(world.ray(0, place(63, 0, 0), [-1, 0, 0])?, None);
    assert_eq!(world.ray(0, place(63, 0, 0), [0, 0, 0]), Err(Refusal::BadWay));
    world.undo()?;
    assert_eq!(world.newest()?, 3);
    assert!(world.same(1, 3)?);
    assert!(!world.same(2, 3)?);
    assert_eq!(world.fill(boxed(place(60, 0, 0), place(8, 1, 1))), Err(Refusal::Outside));
    assert_eq!(world.get(9, place(0, 0, 0)), Err(Refusal::NoVersion));
    assert_eq!(world.stamp(0, place(0, 0, 0)), Err(Refusal::NoModel));

    let file = world.save(1, cube)?;
    let mut other = World::open(16, 0, &file)?;
    assert_eq!(other.model_size(0)?, place(8, 8, 8));
    other.stamp(0, place(8, 8, 8))?;
    assert!(other.get(1, place(15, 15, 15))?);
    assert!(String::from_utf8(other.journal()?).unwrap().ends_with("1 0 1 stamp 0 8 8 8\nend\n"));

    let shared = Arc::new(Mutex::new(world));
    let threads: Vec<_> = (0..4)
        .map(|k| {
            let shared = Arc::clone(&shared);
            thread::spawn(move || shared.lock().unwrap().fill(boxed(place(16 * k, 32, 0), place(16, 1, 1))))
        })
        .collect();
    for thread in threads {
        thread.join().unwrap()?;
    }
    let mut world = shared.lock().unwrap();
    assert_eq!(world.newest()?, 7);
    assert_eq!(world.count(7, boxed(place(0, 32, 0), place(64, 1, 1)))?, 64);
    Ok(())
}

#[cfg(all(voxdag = "about", voxdag = "dag"))]
#[test]
fn a_world_tells_how_it_is_open_and_gives_its_file_of_versions() -> Result<(), Refusal> {
    let mut world = World::open(8, 7, &[])?;
    let plan = world.about()?;
    assert_eq!((plan.side, plan.cap, plan.keep, plan.tints), (8, 7, 0, 0));
    world.fill(boxed(place(0, 0, 0), place(8, 8, 8)))?;
    // The example of docs/DAG_FILES.md: an empty version, and one with all cells.
    let mut file = b"VDAG".to_vec();
    let words = |numbers: &[u32]| numbers.iter().flat_map(|n| n.to_le_bytes()).collect::<Vec<u8>>();
    file.extend(words(&[1, 8, 2, 1, 1]));
    file.extend([0xff; 8]);
    file.extend(words(&[1; 8]));
    file.extend(words(&[0, 0, 1, 1]));
    assert_eq!(world.dag()?, file);
    Ok(())
}

#[cfg(voxdag = "versions_open")]
#[test]
fn a_file_of_versions_is_asked() -> Result<(), Refusal> {
    use voxdag::Versions;
    let (all, two) = (boxed(place(0, 0, 0), place(8, 8, 8)), boxed(place(1, 2, 3), place(2, 1, 1)));
    let mut world = World::open(8, 0, &[])?;
    assert_eq!((world.fill(two)?, world.erase(boxed(two.at, place(1, 1, 1)))?), (1, 2));
    world.forget(0)?;
    let mut file = world.dag()?;
    let mut versions = Versions::open(&file)?;
    assert_eq!((versions.side()?, versions.newest()?), (8, 2));
    assert_eq!((versions.get(1, two.at)?, versions.get(2, two.at)?), (true, false));
    assert_eq!((versions.count(1, all)?, versions.faces(1, all)?), (2, 10));
    assert_eq!(versions.bounds(1)?, Some(two));
    assert_eq!(versions.ray(1, place(7, 2, 3), [-1, 0, 0])?, Some(place(2, 2, 3)));
    assert_eq!((versions.changes(1, 2)?, versions.same(1, 2)?, versions.same(2, 2)?), (Some(boxed(two.at, place(1, 1, 1))), false, true));
    assert_eq!((versions.surface(1, all)?, versions.save(2, two)?), (world.surface(1, all)?, world.save(2, two)?));
    assert_eq!(versions.flood(2, two, two.at)?, world.flood(2, two, two.at)?);
    assert_eq!((versions.count(0, all), versions.bounds(3)), (Err(Refusal::NoVersion), Err(Refusal::NoVersion)));
    assert_eq!(versions.count(1, boxed(two.at, place(8, 1, 1))), Err(Refusal::Outside));
    file.push(0);
    assert_eq!(Versions::open(&file).err(), Some(Refusal::BadDag { at: file.len() as u64 - 1 }));
    Ok(())
}

#[cfg(all(voxdag = "changes", voxdag = "surface"))]
#[test]
fn what_changed_and_what_can_be_seen() -> Result<(), Refusal> {
    use voxdag::{Shown, Side};
    let row = boxed(place(0, 0, 0), place(4, 1, 1));
    let mut world = World::open(8, 0, &[])?;
    assert_eq!(world.fill(row)?, 1);
    assert_eq!(world.erase(boxed(place(1, 0, 0), place(1, 1, 1)))?, 2);
    assert_eq!(world.changes(1, 2)?, Some(boxed(place(1, 0, 0), place(1, 1, 1))));
    assert_eq!(world.changes(2, 2)?, None);
    let seen = world.surface(2, row)?;
    let cell = |x, sides| Shown { x, y: 0, z: 0, tint: 1, sides };
    assert_eq!(seen, [cell(0, 63), cell(2, 61), cell(3, 62)]);
    assert_eq!(seen[1].bare().filter(|&side| side == Side::Right).count(), 0);
    assert_eq!(seen.iter().flat_map(|cell| cell.bare()).count() as u64, world.faces(2, row)?);
    Ok(())
}

#[cfg(voxdag = "open_journal")]
#[test]
fn a_world_is_gone_on_with() -> Result<(), Refusal> {
    use voxdag::Plan;
    let cube = boxed(place(0, 0, 0), place(2, 2, 2));
    let mut world = World::open(8, 0, &[])?;
    world.fill(cube)?;
    world.undo()?;
    let journal = world.journal()?;
    let mut later = World::open_journal(&Plan::default(), &[], &journal)?;
    assert_eq!(later.journal()?, journal);
    assert_eq!(later.redo()?, 3);
    assert_eq!(later.count(3, cube)?, 8);
    let no_journal = World::open_journal(&Plan::default(), &[], b"voxdag journal 1\nside 8\n1 0 1 undo\nend\n");
    assert_eq!(no_journal.err(), Some(Refusal::NotLegal { line: 3 }));
    Ok(())
}

#[cfg(all(voxdag = "open_scene", voxdag = "colour"))]
#[test]
fn a_scene_is_opened() -> Result<(), Refusal> {
    use voxdag::Plan;
    // Two cells of the colours 5 and 9 stand once, where their model is the scene: its chunks and no nodes.
    let words = |numbers: &[u32]| numbers.iter().flat_map(|n| n.to_le_bytes()).collect::<Vec<u8>>();
    let chunk = |name: &[u8], content: &[u32]| [name, &words(&[4 * content.len() as u32, 0]), &words(content)].concat();
    let model = [chunk(b"SIZE", &[2, 1, 1]), chunk(b"XYZI", &[2, 5 << 24, 9 << 24 | 1])].concat();
    let file = |more: &[u8]| [b"VOX " as &[u8], &words(&[150]), b"MAIN", &words(&[0, (model.len() + more.len()) as u32]), &model, more].concat();
    let (mut world, placements) = World::open_scene(&Plan { tints: 1, ..Plan::default() }, &file(&[]))?;
    assert_eq!((placements, world.newest()?, world.about()?.side), (1, 1, 4));
    assert_eq!((world.colour(1, place(0, 0, 0))?, world.colour(1, place(1, 0, 0))?, world.colour(1, place(2, 0, 0))?), (5, 9, 0));
    // Node 0 shows model 1 of the file, which it hasn't; and a world has no side of 5.
    let no_model = World::open_scene(&Plan::default(), &file(&chunk(b"nSHP", &[0, 0, 1, 1, 0])));
    assert_eq!(no_model.err(), Some(Refusal::BadScene { kind: 7, at: 0 }));
    assert_eq!(World::open_scene(&Plan { side: 5, ..Plan::default() }, &file(&[])).err(), Some(Refusal::BadPlan));
    Ok(())
}

#[cfg(all(voxdag = "open_as", voxdag = "fill_tint", voxdag = "colour"))]
#[test]
fn cells_have_tints() -> Result<(), Refusal> {
    use voxdag::Plan;
    let one = boxed(place(1, 1, 1), place(1, 1, 1));
    let mut world = World::open_as(&Plan { side: 8, tints: 1, ..Plan::default() }, &[])?;
    assert_eq!(world.fill_tint(one, 7)?, 1);
    assert_eq!(world.fill(one)?, 2);
    assert_eq!(world.ball_tint(place(1, 1, 1), 0, 7)?, 3);
    assert_eq!((world.colour(0, one.at)?, world.colour(1, one.at)?, world.colour(2, one.at)?), (0, 7, 1));
    assert!(world.same(1, 3)? && !world.same(1, 2)?);
    assert_eq!(world.fill_tint(one, 0), Err(Refusal::BadTint));
    // The colour of the one cell is the last byte of its file.
    assert_eq!(world.save(1, one)?.last(), Some(&7));
    let mut later = World::open_journal(&Plan::default(), &[], &world.journal()?)?;
    assert_eq!(later.colour(3, one.at)?, 7);
    assert_eq!(World::open(8, 0, &[])?.fill_tint(one, 7), Err(Refusal::OtherKind));
    Ok(())
}

#[cfg(all(voxdag = "open_as", voxdag = "fill_tint", voxdag = "changes", voxdag = "surface"))]
#[test]
fn tints_are_compared_and_seen() -> Result<(), Refusal> {
    use voxdag::{Plan, Shown};
    let one = boxed(place(1, 1, 1), place(1, 1, 1));
    let mut world = World::open_as(&Plan { side: 8, tints: 1, ..Plan::default() }, &[])?;
    assert_eq!((world.fill_tint(one, 7)?, world.fill_tint(one, 8)?), (1, 2));
    assert_eq!((world.changes(1, 2)?, world.changes(2, 2)?), (Some(one), None));
    assert_eq!(world.surface(2, one)?, [Shown { x: 0, y: 0, z: 0, tint: 8, sides: 63 }]);
    Ok(())
}
