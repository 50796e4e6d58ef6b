//! Scene lists, and `load`.

use std::fs;
use std::io::{self, Read};
use std::path::Path;

use anyhow::Context;
use serde::Serialize;
use streterva::{LoadRefusal, Scene, State};
use streterva_store::Look;

use crate::args;
use crate::failure::Failure;
use crate::interrupt;
use crate::numbers::counted;
use crate::tell::{bar, tell, Answer};

/// The most bytes of a scene list: some hundred for each of 65,536 scenes.
const MOST_BYTES: u64 = 16 << 20;

/// A scene of a list, with its name, which may be empty.
pub struct Named {
    pub scene: Scene,
    pub name: String,
}

/// Reads a list: a scene a line, its first block, its count and a name if wanted. Empty lines and what is behind # are
/// left out.
pub fn read(path: &Path) -> anyhow::Result<Vec<Named>> {
    let text = match path == Path::new("-") {
        true => interrupt::waiting(|| read_text(io::stdin()))?,
        false => fs::File::open(path).and_then(read_text),
    };
    let text = text.with_context(|| format!("cannot read {}", path.display()))?;
    let lines = text.lines().zip(1..);
    let scenes = lines.filter_map(|(line, number)| {
        let line = line.split('#').next().unwrap_or("").trim();
        let wrong = || {
            let place = format!("{}, line {number}", path.display());
            Failure::Input(format!("{place}: a first block and a count are expected, and there is '{}'", start(line)))
        };
        (!line.is_empty()).then(|| scene(line).ok_or_else(wrong))
    });
    Ok(scenes.collect::<Result<_, _>>()?)
}

fn read_text(from: impl Read) -> io::Result<String> {
    let mut text = String::new();
    from.take(MOST_BYTES + 1).read_to_string(&mut text)?;
    match text.len() as u64 > MOST_BYTES {
        true => Err(io::Error::other("it is too long for a scene list")),
        false => Ok(text),
    }
}

/// The start of a line that may be anything, for a sentence.
fn start(line: &str) -> String {
    let start: String = line.chars().take(40).collect();
    let rest = if start.len() < line.len() { " .." } else { "" };
    format!("{}{rest}", start.escape_debug())
}

fn scene(line: &str) -> Option<Named> {
    let mut words = line.split_whitespace();
    let first = words.next()?.parse().ok()?;
    let count = words.next()?.parse().ok()?;
    let name = words.collect::<Vec<_>>().join(" ");
    Some(Named { scene: Scene { first, count }, name })
}

/// The blocks that each disk of the volume serves.
pub fn served(state: &State, scenes: &[Scene]) -> Result<Vec<u64>, LoadRefusal> {
    Ok(state.load(scenes)?[..state.disks() as usize].to_vec())
}

#[derive(Serialize)]
struct Load {
    scenes: u64,
    blocks: u64,
    served: Vec<u64>,
}

pub fn load(arguments: &args::Load, json: bool) -> anyhow::Result<()> {
    let look = Look::at(&arguments.volume)?;
    let list = read(&arguments.scenes)?;
    let scenes: Vec<Scene> = list.iter().map(|named| named.scene).collect();
    let served = served(&look.state, &scenes)?;
    tell(&Load { scenes: scenes.len() as u64, blocks: served.iter().sum(), served }, json)
}

impl Answer for Load {
    fn text(&self) -> String {
        let mut text = format!("{} name {}\n", counted(self.scenes, "scene"), counted(self.blocks, "block"));
        let most = self.served.iter().copied().max().unwrap_or(0);
        for (disk, blocks) in self.served.iter().enumerate() {
            text += &format!("  disk {disk:>2} {} {}\n", bar(*blocks, most, 40), counted(*blocks, "block"));
        }
        text
    }
}

#[cfg(test)]
mod tests {
    use super::*;
    use std::io::Write;

    fn listed(text: &str) -> anyhow::Result<Vec<Named>> {
        let mut file = tempfile::NamedTempFile::new()?;
        file.write_all(text.as_bytes())?;
        read(file.path())
    }

    #[test]
    fn lists() {
        let list = listed("# a show\n0 20 opening  scene\n\n15\t10 # the end\n18446744073709551615 0\n").unwrap();
        let told: Vec<_> = list.iter().map(|named| (named.scene.first, named.scene.count, &*named.name)).collect();
        assert_eq!(told, [(0, 20, "opening scene"), (15, 10, ""), (u64::MAX, 0, "")]);
        for wrong in ["1\n", "x 1\n", "1 -2\n", "1 18446744073709551616\n", "0 1\n5 \n"] {
            assert!(listed(wrong).is_err(), "{wrong}");
        }
        let error = listed("0 1\n\n7 y\n").err().unwrap().to_string();
        assert!(error.ends_with("line 3: a first block and a count are expected, and there is '7 y'"), "{error}");
    }
}
