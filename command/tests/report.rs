//! The report's page as people see it: opened in Chromium, measured, photographed and printed, and compared with what
//! is stored in the folder `report` beside this file. With STRETERVA_STORE_REPORT=1 it is stored anew.

mod common;

use std::fs;
use std::path::{Path, PathBuf};
use std::process::Command;

use common::{Ended, Form, Rack, Running};

const BROWSER: &str = "chromium";

/// The width of the window, in pixels.
const WIDTH: u32 = 1100;

/// The heights may be apart by one part in so many: fonts differ.
const HEIGHT_PARTS: u32 = 100;

/// Put behind the page: puts its height and its text in its place.
const MEASURE: &str = "<script>
const height = document.documentElement.scrollHeight;
const text = document.body.innerText;
document.head.remove();
document.body.textContent = 'height ' + height + '\\n' + text + '\\nend';
</script>
";

const SCENES: &str = "\
# the show of a rack with 16 rows
0 20 doors open
20 40 first act <with \"marks\" & more>
60 8 a black screen
68 12
";

/// A volume that has grown from 3 disks to 5 and is on its way to 8, with the report on it.
fn rack() -> Rack {
    let rack = Rack::new(Form::Image, 16, 3);
    rack.grow_and_run(5);
    rack.done("grow volume 8");
    rack.done("advance volume --calls 20");
    rack.put("scenes", SCENES);
    rack.done("report volume page.html --scenes scenes");
    rack
}

fn page(rack: &Rack) -> String {
    String::from_utf8(rack.get("page.html")).expect("the page is text")
}

/// Has the browser open a page of the rack's folder.
fn browse(rack: &Rack, words: &[&str], page: &str) -> Ended {
    let folder = format!("--user-data-dir={}", rack.path("browser").display());
    let always = ["--headless", "--no-sandbox", "--disable-gpu", "--hide-scrollbars", folder.as_str()];
    let mut command = Command::new(BROWSER);
    command.args(always).args(words).arg(rack.path(page)).current_dir(rack.path(""));
    let running = Running::begin(&mut command, b"");
    running.unwrap_or_else(|error| panic!("the tests of the report need {BROWSER}: {error}")).ended().with_status(0)
}

/// The height of the page in the window, and its text as it is seen, with its date masked.
fn measured(rack: &Rack) -> (u32, String) {
    rack.put("measured.html", page(rack).replace("</body>", &format!("{MEASURE}</body>")));
    let window = format!("--window-size={WIDTH},800");
    let shown = browse(rack, &["--dump-dom", "--virtual-time-budget=2000", &window], "measured.html");
    let (_, shown) = shown.text().split_once("height ").expect("the height was put there");
    let (shown, _) = shown.split_once("\nend").expect("the text was put there");
    let (height, text) = shown.split_once('\n').expect("the text is behind the height");
    (height.parse().expect("a number"), masked(text))
}

/// The text with another date, and the characters that the dump escapes.
fn masked(text: &str) -> String {
    let (before, date) = text.split_once("Report of ").expect("the page has its date");
    let (date, after) = date.split_at("2026-11-17 18:30 UTC".len());
    let digits = |text: &str| text.chars().map(|c| if c.is_ascii_digit() { '0' } else { c }).collect::<String>();
    assert_eq!(digits(date), "0000-00-00 00:00 UTC");
    let text = format!("{before}Report of DATE{after}\n");
    text.replace("&nbsp;", "\u{a0}").replace("&lt;", "<").replace("&gt;", ">").replace("&amp;", "&")
}

/// The width and height of a PNG, in pixels.
fn pixels(picture: &[u8]) -> (u32, u32) {
    assert_eq!(picture[..8], *b"\x89PNG\r\n\x1a\n");
    assert_eq!(picture[12..16], *b"IHDR");
    let number = |from: usize| u32::from_be_bytes(picture[from..from + 4].try_into().expect("four bytes"));
    (number(16), number(20))
}

fn stored(name: &str) -> PathBuf {
    Path::new(env!("CARGO_MANIFEST_DIR")).join("tests/report").join(name)
}

fn stores() -> bool {
    std::env::var_os("STRETERVA_STORE_REPORT").is_some_and(|value| value == "1")
}

/// The bytes that are stored, or now stored anew.
fn stored_bytes(name: &str, now: &[u8]) -> Vec<u8> {
    if stores() {
        fs::create_dir_all(stored("")).expect("a folder can be made");
        fs::write(stored(name), now).expect("the file can be stored");
    }
    fs::read(stored(name)).unwrap_or_else(|error| panic!("{}: {error}", stored(name).display()))
}

/// The first lines in which two texts differ.
fn first_difference<'a>(text: &'a str, other: &'a str) -> Option<(&'a str, &'a str)> {
    let mut both = text.lines().chain(["the end"]).zip(other.lines().chain(["the end"]));
    both.find(|(line, other)| line != other)
}

fn is_as_stored(name: &str, text: &str) {
    let stored_text = stored_bytes(name, text.as_bytes());
    let difference = first_difference(text, &String::from_utf8_lossy(&stored_text)).map(|(a, b)| format!("{a} | {b}"));
    assert_eq!(difference, None, "the page | {name}");
}

/// A volume that never grew, in a folder.
#[test]
fn the_page_of_a_new_volume_is_as_it_is_stored() {
    let rack = Rack::new(Form::Folder, 8, 2);
    rack.done("report volume page.html");
    is_as_stored("new.txt", &measured(&rack).1);
}

#[test]
fn the_page_is_as_it_is_stored() {
    let rack = rack();
    let (height, text) = measured(&rack);
    is_as_stored("page.txt", &text);

    let window = format!("--window-size={WIDTH},{height}");
    browse(&rack, &["--screenshot=page.png", &window], "page.html");
    let picture = rack.get("page.png");
    assert_eq!(pixels(&picture), (WIDTH, height));
    let (width, stored_height) = pixels(&stored_bytes("page.png", &picture));
    assert_eq!(width, WIDTH);
    let apart = stored_height.abs_diff(height);
    assert!(apart <= stored_height / HEIGHT_PARTS, "the page is {height} pixels high, and was {stored_height}");
}

/// What a page can name that is not in it.
const OTHER_RESOURCES: [&str; 12] = [
    "src=",
    "srcset=",
    "href=",
    "url(",
    "@import",
    "<script",
    "<link",
    "<iframe",
    "<object",
    "<embed",
    "<base",
    "http-equiv",
];

#[test]
fn the_page_needs_no_other_file() {
    let page = page(&rack());
    let named: Vec<&str> = OTHER_RESOURCES.into_iter().filter(|name| page.to_lowercase().contains(name)).collect();
    assert_eq!(named, Vec::<&str>::new());
    let links = page.match_indices("://").map(|(at, _)| &page[at.saturating_sub(20)..(at + 30).min(page.len())]);
    let other: Vec<&str> = links.filter(|link| !link.contains("xmlns=\"http://www.w3.org/")).collect();
    assert_eq!(other, Vec::<&str>::new());
}

/// Printed, the page has a few sheets of A4 or letter.
#[test]
fn the_page_can_be_printed() {
    let rack = rack();
    browse(&rack, &["--print-to-pdf=page.pdf", "--no-pdf-header-footer"], "page.html");
    let printed = rack.get("page.pdf");
    assert!(printed.starts_with(b"%PDF-"));
    let sheets = printed.windows(11).filter(|word| *word == b"/Type /Page").count();
    let trees = printed.windows(12).filter(|word| *word == b"/Type /Pages").count();
    assert!((1..=6).contains(&(sheets - trees)), "{sheets} sheets and {trees} lists of them");
}
