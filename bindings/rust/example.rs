//! Each of 0 1 2 tied to each of 3 4 5; 3 is hidden; the visible part is released, read back and asked; a state is kept and restored;
//! 5 gets a class of its own.

#[path = "tegmulos.rs"]
mod tegmulos;

use tegmulos::{file_distance, file_neighbours, store_words, Index, Name, Refusal, Update};

const FIRST: Name = *b"first reading\0\0\0";

fn main() -> Result<(), Refusal> {
    let (mut index, mut store) = Index::open(6)?;
    println!("words of the store: {}", store_words(6));
    let mut updates = Vec::new();
    for u in 0..3 {
        for v in 3..6 {
            updates.push(Update::Edge { u, v, wanted: true });
        }
    }
    let (hide, delete) = (Update::Mark { u: 3, wanted: true }, Update::Edge { u: 0, v: 3, wanted: false });
    updates.extend([hide, delete]);
    println!("answers: {:?}", index.apply(&updates)?);
    let (tied, apart) = (Update::Edge { u: 0, v: 4, wanted: true }, Update::Edge { u: 0, v: 1, wanted: false });
    println!("what holds already: {:?}", index.apply(&[tied, apart, Update::Mark { u: 0, wanted: false }])?);
    println!("0 and 3 tied: {}", index.tied(0, 3)?);
    println!("group of 4: {:?}", index.group(4)?);
    println!("neighbours of 0: {:?}", index.neighbours(0)?);
    let release = index.release()?;
    println!("visible {} groups {} superedges {} bytes {}", release.nodes, release.groups, release.superedges, release.file.len());
    println!("{:02X?}", release.file);
    let read = Index::read(6, &release.file)?;
    println!("released again, the same: {}", read.release()? == release);
    println!("neighbours of 0 in the file: {:?}", file_neighbours(&release.file, 0)?);
    println!("distances of 0 to 1 and 4: {:?} {:?}", file_distance(&release.file, 0, 1)?, file_distance(&release.file, 0, 4)?);
    index.keep(&mut store, &FIRST)?;
    index.apply(&[Update::Mark { u: 3, wanted: false }, delete, hide])?;
    println!("group of 0 without its edge to the hidden 3: {:?}", index.group(0)?);
    println!("the release, the same: {}", index.release()? == release);
    if let Err(refusal) = index.keep(&mut store, &FIRST) {
        println!("kept again: {}", refusal);
    }
    index.restore(&store, &FIRST)?;
    println!("restored, 0 and 3 tied: {}", index.tied(0, 3)?);
    println!("5 of class 1: {:?}", index.apply(&[Update::Class { u: 5, class: 1 }, Update::Class { u: 5, class: 1 }])?);
    println!("group of 4: {:?}", index.group(4)?);
    let classes = index.release()?;
    println!("groups {} superedges {} bytes {}", classes.groups, classes.superedges, classes.file.len());
    println!("released again, the same: {}", Index::read(6, &classes.file)?.release()? == classes);
    store.drop_state(&FIRST)?;
    if let Err(refusal) = index.restore(&store, &FIRST) {
        println!("dropped, then restored: {}", refusal);
    }
    if let Err(refusal) = file_neighbours(&release.file, 3) {
        println!("of 3, hidden: {}", refusal);
    }
    if let Err(refusal) = Index::open(513) {
        println!("of 513 nodes: {}", refusal);
    }
    Ok(())
}
