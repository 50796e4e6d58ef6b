//! Volumes on block devices: loop devices, where this process may make them. Elsewhere the tests say that they were
//! left out.

mod common;

use std::path::Path;
use std::process::Command;

use common::{pieces, Form, Rack, Refused};

/// A loop device of so many bytes behind a file of the rack's folder; it goes with this value.
struct Device(String);

impl Device {
    fn new(rack: &Rack, name: &str, bytes: usize) -> Option<Device> {
        rack.put(name, vec![0xEE; bytes]);
        let made = Command::new("losetup").args(["--find", "--show"]).arg(rack.path(name)).output().ok()?;
        let device = String::from_utf8(made.stdout).ok()?.trim().to_string();
        Path::new(&device).exists().then_some(Device(device))
    }

    fn all(rack: &Rack, count: usize, bytes: usize) -> Option<Vec<Device>> {
        let device = |drive| Device::new(rack, &format!("drive-{drive}"), bytes);
        let devices: Option<Vec<Device>> = (0..count).map(device).collect();
        if devices.is_none() {
            println!("left out: no loop devices can be made here");
        }
        devices
    }
}

impl Drop for Device {
    fn drop(&mut self) {
        drop(Command::new("losetup").args(["--detach", &self.0]).status());
    }
}

/// A growth from 2 drives to 4, with links put there before.
#[test]
fn a_folder_of_links_to_devices() {
    let rack = Rack::empty(Form::Folder);
    let Some(devices) = Device::all(&rack, 4, 8 * 4096) else { return };
    std::fs::create_dir(rack.path("volume")).unwrap();
    for (device, disk) in devices.iter().zip(0..) {
        std::os::unix::fs::symlink(&device.0, rack.path(&format!("volume/disk-{disk:02}"))).unwrap();
    }
    let create = "create volume --folder --size 512 --rows 64 --disks 2";
    let there = Refused(1, None, "volume exists already and is no volume; --force overwrites it");
    rack.refused(create, there);
    rack.done(&format!("{create} --force"));
    rack.save(0..128, 1);
    rack.grow_and_run(4);
    rack.has(0..128, 1);
    rack.done("check volume");
}

/// Room is what the device has; a device is never made longer.
#[test]
fn an_image_on_a_device() {
    let rack = Rack::empty(Form::Image);
    let Some(devices) = Device::all(&rack, 1, 512 + 3 * 64 * 512) else { return };
    let device = &devices[0].0;
    rack.done(&format!("create {device} --size 512 --rows 64 --disks 2 --room 3 --force"));
    rack.put("pictures", pieces(&(0..128), 1));
    rack.done(&format!("import {device} pictures"));
    assert_eq!(rack.call(&format!("grow {device} 4")).status(), 1);
    assert_eq!(rack.call(&format!("grow {device} 4 --lengthen")).status(), 5);
    rack.done(&format!("grow {device} 3"));
    rack.done(&format!("run {device}"));
    rack.done(&format!("export {device} out --blocks 128"));
    assert_eq!(rack.get("out"), pieces(&(0..128), 1));
    rack.done(&format!("check {device}"));
}

/// A device too short for its disk is told apart, and keeps its bytes.
#[test]
fn a_device_that_is_too_short() {
    let rack = Rack::empty(Form::Folder);
    let Some(devices) = Device::all(&rack, 1, 7 * 4096) else { return };
    std::fs::create_dir(rack.path("volume")).unwrap();
    std::os::unix::fs::symlink(&devices[0].0, rack.path("volume/disk-00")).unwrap();
    let told = rack.unchanged(|| rack.call("create volume --folder --size 512 --rows 64 --disks 1 --force"));
    assert_eq!(told.status(), 5, "{}", told.error);
    assert_eq!(std::fs::read(&devices[0].0).unwrap(), vec![0xEE; 7 * 4096]);
}
