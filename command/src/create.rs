//! `create`.

use serde::Serialize;
use streterva::State;
use streterva_store::{Form, Options, Plan, Volume};

use crate::args;
use crate::numbers::{commas, counted};
use crate::status::form_word;
use crate::tell::{tell, Answer};

#[derive(Serialize)]
struct Created {
    volume: String,
    form: &'static str,
    block_bytes: u64,
    rows: u64,
    disks: u64,
    room: u64,
    open_blocks: u64,
    open_bytes: u64,
}

pub fn run(arguments: &args::Create, options: &Options, json: bool) -> anyhow::Result<()> {
    let form = if arguments.folder { Form::Folder } else { Form::Image };
    let twice = arguments.disks.saturating_mul(2).min(State::MOST_DISKS);
    let plan = Plan {
        size: arguments.size,
        rows: arguments.rows,
        disks: arguments.disks,
        form,
        room: arguments.room.unwrap_or(twice),
        force: arguments.force,
    };
    let volume = Volume::create(&arguments.volume, &plan, options)?;
    let created = Created {
        volume: arguments.volume.display().to_string(),
        form: form_word(form),
        block_bytes: plan.size,
        rows: plan.rows,
        disks: plan.disks,
        room: if arguments.folder { State::MOST_DISKS } else { plan.room },
        open_blocks: volume.open_blocks(),
        open_bytes: volume.open_blocks() * plan.size,
    };
    tell(&created, json)
}

impl Answer for Created {
    fn text(&self) -> String {
        format!(
            "made {}: {} of {}, {} of {} bytes; room for {}\n",
            self.volume,
            counted(self.disks, "disk"),
            counted(self.rows, "row"),
            counted(self.open_blocks, "block"),
            commas(self.block_bytes),
            counted(self.room, "disk")
        )
    }
}
